/* Starts a program of Windows as no other test of a Linux machine can, waits for it, and ends with its status.
 *
 *   starting held FILE WORDS     while FILE is open for writing, and shared for reading alone
 *   starting half PROGRAM        with `param` and a word of half a pair of UTF-16, which is no text
 *
 * WORDS is a whole command line. */
#include <stdio.h>
#include <string.h>
#include <windows.h>

static DWORD status_of(wchar_t *words) {
    STARTUPINFOW how = {.cb = sizeof how};
    PROCESS_INFORMATION started;
    DWORD status = 100;
    if (CreateProcessW(NULL, words, NULL, NULL, TRUE, 0, NULL, NULL, &how, &started)) {
        WaitForSingleObject(started.hProcess, INFINITE);
        GetExitCodeProcess(started.hProcess, &status);
    }
    return status;
}

int wmain(int count, wchar_t **given) {
    static wchar_t words[32768];
    if (count == 4 && wcscmp(given[1], L"held") == 0) {
        HANDLE file = CreateFileW(given[2], GENERIC_READ | GENERIC_WRITE, FILE_SHARE_READ, NULL, OPEN_EXISTING, 0, NULL);
        if (file == INVALID_HANDLE_VALUE) {
            fprintf(stderr, "not held\n");
            return 101;
        }
        wcscpy(words, given[3]);
        DWORD status = status_of(words);
        CloseHandle(file);
        return (int)status;
    }
    if (count == 3 && wcscmp(given[1], L"half") == 0) {
        swprintf(words, sizeof words / sizeof *words, L"\"%ls\" param a\xd800z", given[2]);
        return (int)status_of(words);
    }
    return 102;
}
