/* The host on Windows. Files and streams are handles, which are read and written in bytes. Names and words are UTF-16 for the
 * system, and UTF-8 for the program.
 *
 * On Windows `/dev/stdin` is the program's name for standard input, as in its help, in the tools and in the recipes. No
 * file of Windows has this name but by intent.
 *
 * A word that is no text is refused there too: half of a pair of UTF-16 is handed to the program as a byte that no
 * UTF-8 has. The first word is the program's name without folder and `.exe`, as help prints it elsewhere.
 *
 * A reader that goes away is a write fault, with status 3, on each system: Windows has no SIGPIPE, and Linux's is
 * ignored.
 *
 * A console is set to UTF-8 while the program runs, where an answer goes to one, and set back when it ends. A program
 * that is killed leaves it so.
 */
#define WIN32_LEAN_AND_MEAN
#include <windows.h>

#include <stdlib.h>

#include "errors.h"
#include "host.h"

/* The most characters of a part of a name between slashes. */
enum { MOST_OF_NAME = 255 };

/* The most bytes that are asked of the system at once, and of a console. */
enum { MOST_AT_ONCE = 1 << 30, MOST_OF_CONSOLE = 1 << 14 };

/* The program's name for standard input, since the system has none. */
static const char STANDARD_INPUT[] = "/dev/stdin";

static int last_error;
static int word_count;
static char **words;

int rattle_errno(void) { return last_error; }

void rattle_set_errno(int error) { last_error = error; }

/* The answer of a call that failed, for which the system gave this error. */
static int failed(DWORD error) {
    switch (error) {
    case ERROR_NOT_ENOUGH_MEMORY:
    case ERROR_OUTOFMEMORY:
    case ERROR_NO_SYSTEM_RESOURCES:
    case ERROR_COMMITMENT_LIMIT:
        last_error = OUT_OF_MEMORY;
        break;
    case ERROR_FILE_NOT_FOUND:
    case ERROR_PATH_NOT_FOUND:
    case ERROR_INVALID_NAME:
    case ERROR_BAD_PATHNAME:
        last_error = NO_SUCH_FILE;
        break;
    case ERROR_ACCESS_DENIED:
    case ERROR_SHARING_VIOLATION:
        last_error = NOT_PERMITTED;
        break;
    case ERROR_DIRECTORY:
        last_error = NO_FOLDER;
        break;
    case ERROR_FILENAME_EXCED_RANGE:
        last_error = NAME_TOO_LONG;
        break;
    default:
        last_error = INPUT_OUTPUT;
    }
    return -1;
}

/* --- Names --- */

/* A text in UTF-16, or NULL where there is no memory. */
static wchar_t *wide(const char *text) {
    int room = MultiByteToWideChar(CP_UTF8, 0, text, -1, NULL, 0);
    wchar_t *found = malloc((size_t)room * sizeof *found);
    if (found)
        MultiByteToWideChar(CP_UTF8, 0, text, -1, found, room);
    return found;
}

/* A word in UTF-8, or NULL where there is no memory. A word that is no text, since half of a pair is missing in it, has a byte
 * that no UTF-8 has. */
static char *narrow(const wchar_t *word) {
    int room = WideCharToMultiByte(CP_UTF8, WC_ERR_INVALID_CHARS, word, -1, NULL, 0, NULL, NULL);
    char *found = malloc(room > 0 ? (size_t)room : sizeof "\xff");
    if (found && room > 0)
        WideCharToMultiByte(CP_UTF8, WC_ERR_INVALID_CHARS, word, -1, found, room, NULL, NULL);
    else if (found)
        strcpy(found, "\xff");
    return found;
}

/* Opens a file that others may meanwhile write, rename and remove. A folder is opened too: reading it fails, as elsewhere. */
static HANDLE opened(const wchar_t *name) {
    const DWORD shared = FILE_SHARE_READ | FILE_SHARE_WRITE | FILE_SHARE_DELETE;
    const DWORD flags = FILE_FLAG_BACKUP_SEMANTICS | FILE_FLAG_SEQUENTIAL_SCAN;
    return CreateFileW(name, GENERIC_READ, shared, NULL, OPEN_EXISTING, flags, NULL);
}

/* The whole name of a file, in front of which room for a prefix is left; NULL where there is none, or no memory. */
static wchar_t *whole_name(const wchar_t *name, size_t prefix) {
    DWORD room = GetFullPathNameW(name, 0, NULL, NULL);
    wchar_t *found = room > 0 ? malloc((prefix + room) * sizeof *found) : NULL;
    if (room > 0 && !found)
        SetLastError(ERROR_NOT_ENOUGH_MEMORY);
    if (found && GetFullPathNameW(name, room, found + prefix, NULL) >= room) {
        free(found);
        found = NULL;
    }
    return found;
}

/* Opens a file whose name may be longer than the system takes otherwise: a whole name behind the prefix that says so. */
static HANDLE opened_by_whole_name(const wchar_t *name) {
    static const wchar_t LONG[] = L"\\\\?\\", LONG_ON_SERVER[] = L"\\\\?\\UNC";
    enum { ROOM = sizeof LONG_ON_SERVER / sizeof(wchar_t) - 1, LONG_LENGTH = sizeof LONG / sizeof(wchar_t) - 1 };
    wchar_t *found = whole_name(name, ROOM);
    if (!found)
        return INVALID_HANDLE_VALUE;
    wchar_t *whole = found + ROOM;
    if (whole[0] != L'\\' || whole[1] != L'\\') {
        whole -= LONG_LENGTH;
        memcpy(whole, LONG, LONG_LENGTH * sizeof *whole);
    } else if (whole[2] != L'?' && whole[2] != L'.') {
        /* Of `\\server\share` the first of the two is part of the prefix. */
        whole -= ROOM - 1;
        memcpy(whole, LONG_ON_SERVER, ROOM * sizeof *whole);
    }
    HANDLE file = opened(whole);
    DWORD error = GetLastError();
    free(found);
    SetLastError(error);
    return file;
}

static bool is_slash(wchar_t letter) { return letter == L'/' || letter == L'\\'; }

/* The error that Linux has where no file of this name can be opened: by the first part of the name that is too long, or that is a
 * file and has a slash behind it. The name is changed and changed back. */
static DWORD as_on_linux(DWORD error, wchar_t *name) {
    if (name[wcsspn(name, L" ")] == L'\0')
        return ERROR_FILE_NOT_FOUND;
    for (wchar_t *part = name, *at = name;; at++) {
        if (*at && !is_slash(*at))
            continue;
        if (at - part > MOST_OF_NAME)
            return ERROR_FILENAME_EXCED_RANGE;
        if (!*at)
            return error;
        if (at > part) {
            wchar_t slash = *at;
            *at = L'\0';
            DWORD found = GetFileAttributesW(name);
            *at = slash;
            if (found == INVALID_FILE_ATTRIBUTES)
                return error;
            if (!(found & FILE_ATTRIBUTE_DIRECTORY))
                return ERROR_DIRECTORY;
        }
        part = at + 1;
    }
}

/* --- Files and streams --- */

/* What is open under a number: a stream under its own, and a file under its handle, of which 32 bits say all. The last two of a
 * handle are zero, so it is no number of a stream. */
static HANDLE handle_of(int number) {
    switch (number) {
    case 0:
        return GetStdHandle(STD_INPUT_HANDLE);
    case 1:
        return GetStdHandle(STD_OUTPUT_HANDLE);
    case 2:
        return GetStdHandle(STD_ERROR_HANDLE);
    default:
        return (HANDLE)(intptr_t)number;
    }
}

int p21_open(const char *name, int flags, ...) {
    (void)flags;
    if (strcmp(name, STANDARD_INPUT) == 0)
        return 0;
    wchar_t *asked = wide(name);
    if (!asked)
        return failed(ERROR_NOT_ENOUGH_MEMORY);
    HANDLE file = opened_by_whole_name(asked);
    DWORD error = file == INVALID_HANDLE_VALUE ? as_on_linux(GetLastError(), asked) : ERROR_SUCCESS;
    free(asked);
    return file == INVALID_HANDLE_VALUE ? failed(error) : (int)(intptr_t)file;
}

/* Is this a folder? */
static bool is_folder(int file) {
    BY_HANDLE_FILE_INFORMATION found;
    return GetFileInformationByHandle(handle_of(file), &found) && (found.dwFileAttributes & FILE_ATTRIBUTE_DIRECTORY);
}

/* Is this a console? */
int p21_isatty(int file) {
    DWORD mode;
    return GetConsoleMode(handle_of(file), &mode) != 0;
}

static DWORD at_most(uint64_t count, DWORD most) { return count < most ? (DWORD)count : most; }

int64_t p21_read(int file, void *into, uint64_t room) {
    DWORD count;
    if (ReadFile(handle_of(file), into, at_most(room, MOST_AT_ONCE), &count, NULL))
        return count;
    DWORD error = GetLastError();
    /* Whoever wrote to a pipe has closed it. */
    if (error == ERROR_BROKEN_PIPE || error == ERROR_HANDLE_EOF)
        return 0;
    if (is_folder(file)) {
        last_error = A_FOLDER;
        return -1;
    }
    return failed(error);
}

int64_t p21_write(int file, const void *from, uint64_t count) {
    DWORD taken;
    if (WriteFile(handle_of(file), from, at_most(count, p21_isatty(file) ? MOST_OF_CONSOLE : MOST_AT_ONCE), &taken, NULL))
        return taken;
    return failed(GetLastError());
}

int p21_close(int file) { return file == 0 || CloseHandle(handle_of(file)) ? 0 : failed(GetLastError()); }

/* There are no signals: a write to a pipe that nobody reads fails. */
int64_t __sysv_signal(int signal, int64_t handler) {
    (void)signal, (void)handler;
    return 0;
}

/* --- The program --- */

int64_t rattle_arg(uint64_t number, char *into, uint64_t room) {
    return number < (uint64_t)word_count ? copied(words[number], into, room) : NO_WORD;
}

/* Writes a text to a stream; is all of it written? */
static bool is_written(int stream, const char *text) { return p21_write(stream, text, strlen(text)) == (int64_t)strlen(text); }

/* The code page that a console had, or 0 where none was set. */
static UINT former_page;

static void restore_page(void) {
    if (former_page)
        SetConsoleOutputCP(former_page);
}

/* Has the console, where an answer goes to one, show UTF-8 until the program ends. */
static void show_utf8(void) {
    if (!p21_isatty(1) && !p21_isatty(2))
        return;
    former_page = GetConsoleOutputCP();
    SetConsoleOutputCP(CP_UTF8);
    atexit(restore_page);
}

/* The first word as elsewhere: the name of the program without its folder, and without what the name ends in here. */
static char *as_elsewhere(char *word) {
    static const char ENDING[] = ".exe";
    for (char *at = word; *at; at++)
        if (*at == '\\' || *at == '/' || *at == ':')
            word = at + 1;
    size_t count = strlen(word);
    if (count >= sizeof ENDING && _stricmp(word + count + 1 - sizeof ENDING, ENDING) == 0)
        word[count + 1 - sizeof ENDING] = '\0';
    return word;
}

/* Takes the words of the command line; is there memory for them? */
static bool takes_words(int count, wchar_t **given) {
    words = malloc((size_t)count * sizeof *words);
    if (!words)
        return false;
    for (word_count = 0; word_count < count; word_count++) {
        words[word_count] = narrow(given[word_count]);
        if (!words[word_count])
            return false;
    }
    if (count > 0)
        words[0] = as_elsewhere(words[0]);
    return true;
}

/* The C library takes no word for a pattern of names. */
int _dowildcard = 0;

int wmain(int count, wchar_t **given) {
    /* No dialog asks for a disk that isn't there. */
    SetErrorMode(SEM_FAILCRITICALERRORS | SEM_NOOPENFILEERRORBOX);
    show_utf8();
    if (!takes_words(count, given)) {
        is_written(2, "out of memory\n");
        return FAILED;
    }
    int status = p21_main();
    if (status == 0 && asks_version(word_count, words) && !is_written(1, SYSTEM_LINE))
        return FAILED;
    return status;
}
