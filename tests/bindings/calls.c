/*
 * Calls each function of the library over files of `examples`, and prints what is wrong; the status is 1 where something is.
 *
 *   calls FOLDER      FOLDER is `examples`
 */
#include <inttypes.h>
#include <stdbool.h>
#include <stdio.h>
#include <stdlib.h>
#include <string.h>

#include "p21.h"

static int wrong;

/* The bytes of a file, in memory of their own that has no byte more. */
typedef struct bytes {
    uint8_t *at;
    size_t length;
} bytes;

static void judge(bool holds, const char *what) {
    if (!holds) {
        printf("wrong: %s\n", what);
        wrong = 1;
    }
}

static bytes read_file(const char *folder, const char *name) {
    char path[4096];
    snprintf(path, sizeof path, "%s/%s", folder, name);
    FILE *file = fopen(path, "rb");
    if (file == NULL) {
        perror(path);
        exit(2);
    }
    fseek(file, 0, SEEK_END);
    bytes found = {NULL, (size_t)ftell(file)};
    rewind(file);
    found.at = malloc(found.length > 0 ? found.length : 1);
    if (found.at == NULL || fread(found.at, 1, found.length, file) != found.length) {
        perror(path);
        exit(2);
    }
    fclose(file);
    return found;
}

static bool is_quiet(const p21_report *report) {
    static const p21_report quiet;
    return report->subject == quiet.subject && report->number == 0 && report->absent == 0 && report->place == 0 && report->at == 0 &&
           report->instances == 0 && report->bytes == 0;
}

static bool has_counts(const p21_report *report, uint64_t instances, uint64_t bytes) {
    return report->subject == 0 && report->number == 0 && report->place == 0 && report->at == 0 && report->instances == instances &&
           report->bytes == bytes;
}

/* Is a text these bytes? */
static bool is_text(p21_text *text, const uint8_t *bytes, size_t length) {
    const uint8_t *at = bytes;
    size_t found = 0;
    return p21_text_bytes(text, &at, &found) == P21_DONE && found == length && memcmp(at, bytes, length) == 0;
}

static void test_version(void) {
    p21_parts version = {9, 9, 9};
    p21_version(&version);
    printf("version %" PRIu32 ".%" PRIu32 ".%" PRIu32 "\n", version.major, version.minor, version.patch);
}

static void test_schemas(void) {
    static const struct {
        const char *text;
        uint8_t number;
    } rows[] = {
        {"(* not closed", P21_SCHEMA_TOKEN},
        {"SCHEMA s; END_SCHEMA", P21_SCHEMA_SYNTAX},
        {"SCHEMA s; ENTITY a; END_ENTITY; ENTITY A; END_ENTITY; END_SCHEMA;", P21_SCHEMA_DUPLICATE},
        {"SCHEMA s; ENTITY a; x : foo; END_ENTITY; END_SCHEMA;", P21_SCHEMA_UNKNOWN_NAME},
        {"SCHEMA s; ENTITY a SUBTYPE OF (b); END_ENTITY; ENTITY b SUBTYPE OF (a); END_ENTITY; END_SCHEMA;", P21_SCHEMA_CIRCULAR},
        {"SCHEMA s; USE FROM t; END_SCHEMA;", P21_SCHEMA_LEFT_OUT},
        {"SCHEMA s; ENTITY a; x : LIST [3:1] OF REAL; END_ENTITY; END_SCHEMA;", P21_SCHEMA_BOUNDS},
        {"SCHEMA s; ENTITY a; y : REAL; END_ENTITY; ENTITY b SUBTYPE OF (a); DERIVE SELF\\a.z : REAL := 0.0; END_ENTITY; END_SCHEMA;",
         P21_SCHEMA_REDECLARED_PLACE},
    };
    for (size_t i = 0; i < sizeof rows / sizeof rows[0]; i++) {
        p21_schema schema = P21_EMPTY;
        p21_report report;
        uint8_t status = p21_schema_new((const uint8_t *)rows[i].text, strlen(rows[i].text), &schema, &report);
        judge(status == P21_REFUSED && report.subject == P21_SCHEMA && report.number == rows[i].number && report.place == 0, rows[i].text);
        judge(schema.inside == NULL, "a refused schema hands nothing out");
    }
    size_t length = ((size_t)1 << 24) + 1;
    uint8_t *long_text = malloc(length);
    if (long_text == NULL) {
        exit(2);
    }
    memset(long_text, ' ', length);
    p21_schema schema = P21_EMPTY;
    p21_report report;
    judge(p21_schema_new(long_text, length, &schema, &report) == P21_REFUSED && report.number == P21_SCHEMA_TOO_LARGE, "a schema too large");
    judge(p21_schema_new(long_text, 0, &schema, &report) == P21_REFUSED && report.number == P21_SCHEMA_SYNTAX, "an empty schema");
    free(long_text);
    p21_schema_free(&schema);
}

static void test_refusals(const char *folder, p21_schema *schema) {
    static const struct {
        const char *name;
        uint8_t number;
        uint8_t place;
        uint64_t at;
    } rows[] = {
        {"refused/BadByte.step", P21_BAD_BYTE, P21_STATEMENT, 1},       {"refused/BadDirective.step", P21_BAD_DIRECTIVE, P21_STATEMENT, 4},
        {"refused/Count.step", P21_COUNT, P21_INSTANCE, 3},             {"refused/Dangling.step", P21_DANGLING, P21_INSTANCE, 2},
        {"refused/EndsEarly.step", P21_ENDS_EARLY, P21_STATEMENT, 10},  {"refused/Missing.step", P21_MISSING, P21_INSTANCE, 2},
        {"refused/NotUtf8.step", P21_NOT_UTF8, P21_STATEMENT, 8},       {"refused/SchemaName.step", P21_SCHEMA_NAME, P21_STATEMENT, 5},
        {"refused/UnknownEntity.step", P21_UNKNOWN_ENTITY, P21_INSTANCE, 3}, {"refused/WrongKind.step", P21_WRONG_KIND, P21_INSTANCE, 1},
    };
    for (size_t i = 0; i < sizeof rows / sizeof rows[0]; i++) {
        bytes file = read_file(folder, rows[i].name);
        p21_text text = P21_EMPTY;
        p21_report report;
        uint8_t status = p21_check(schema, file.at, file.length, &report);
        judge(status == P21_REFUSED && report.subject == P21_FILE && report.number == rows[i].number && report.place == rows[i].place &&
                  report.at == rows[i].at && report.instances == 0 && report.bytes == 0,
              rows[i].name);
        status = p21_canonical(schema, file.at, file.length, &text, &report);
        judge(status == P21_REFUSED && report.number == rows[i].number && text.inside == NULL, rows[i].name);
        free(file.at);
    }
    static const char scope[] = "ISO-10303-21;HEADER;FILE_DESCRIPTION((''),'2;1');FILE_NAME('','',(''),(''),'','','');"
                                "FILE_SCHEMA(('PRODUCT_MODEL'));ENDSEC;DATA;#1=&SCOPE";
    p21_report report;
    judge(p21_check(schema, (const uint8_t *)scope, sizeof scope - 1, &report) == P21_REFUSED && report.number == P21_LEFT_OUT &&
              report.absent == P21_ABSENT_SCOPE && report.place == P21_STATEMENT && report.at == 8,
          "a scope is left out");
    judge(p21_check(schema, (const uint8_t *)scope, 0, &report) == P21_REFUSED && report.number == P21_ENDS_EARLY && report.at == 1,
          "an empty file");
}

static void test_files(p21_schema *schema, bytes product, bytes other, bytes changed, bytes refused) {
    p21_report report;
    p21_text text = P21_EMPTY;
    p21_text again = P21_EMPTY;
    judge(p21_check(schema, product.at, product.length, &report) == P21_DONE && has_counts(&report, 128, 4872), "a file is accepted");
    judge(p21_canonical(schema, product.at, product.length, &text, &report) == P21_DONE && has_counts(&report, 128, 4872),
          "its canonical file is handed out");
    const uint8_t *at = NULL;
    size_t length = 0;
    judge(p21_text_bytes(&text, &at, &length) == P21_DONE && length == 4872, "the bytes of its canonical file");
    judge(p21_canonical(schema, at, length, &again, &report) == P21_DONE && is_text(&again, at, length), "a canonical file is its own");
    judge(p21_canonical(schema, other.at, other.length, &again, &report) == P21_DONE && is_text(&again, at, length),
          "that of another file of the same meaning, in the handle of the one before");
    judge(p21_canonical(schema, refused.at, refused.length, &again, &report) == P21_REFUSED && is_text(&again, at, length),
          "a refusal leaves the text as it was");
    uint8_t same = 7;
    judge(p21_same(schema, product.at, product.length, other.at, other.length, &same, &report) == P21_DONE && same == 1 && is_quiet(&report),
          "two files mean the same");
    judge(p21_same(schema, product.at, product.length, changed.at, changed.length, &same, &report) == P21_DONE && same == 0 && is_quiet(&report),
          "two files differ");
    same = 7;
    judge(p21_same(schema, refused.at, refused.length, product.at, product.length, &same, &report) == P21_REFUSED && same == 7 &&
              report.subject == P21_FILE && report.number == P21_COUNT,
          "the first is refused");
    judge(p21_same(schema, product.at, product.length, refused.at, refused.length, &same, &report) == P21_REFUSED && same == 7 &&
              report.subject == P21_SECOND && report.number == P21_COUNT && report.place == P21_INSTANCE && report.at == 3,
          "the second is refused");
    p21_text_free(&again);
    p21_text_free(&text);
}

/* Files of nodes that lead to one another: docs/CANONICAL.md has their numbers. */
#define NODES "SCHEMA net; ENTITY node; label : OPTIONAL STRING; next : OPTIONAL node; END_ENTITY; END_SCHEMA;"
#define OF_NODES(data) "ISO-10303-21;\nHEADER;\nFILE_DESCRIPTION((''),'2;1');\nFILE_NAME('','',(''),(''),'','','');\n" \
                       "FILE_SCHEMA(('NET'));\nENDSEC;\nDATA;\n" data "ENDSEC;\nEND-ISO-10303-21;\n"

static bytes bytes_of(const char *text) {
    bytes found = {(uint8_t *)(uintptr_t)text, strlen(text)};
    return found;
}

static uint8_t numbered(const p21_schema *schema, bytes file, p21_text *text, p21_report *report) {
    p21_place place;
    return p21_numbered(schema, file.at, file.length, text, report, &place);
}

static uint8_t same_but_for_names(const p21_schema *schema, bytes first, bytes second, uint8_t *same, p21_report *report) {
    p21_place place;
    return p21_same_but_for_names(schema, first.at, first.length, second.at, second.length, same, report, &place);
}

/* Where names of instances don't count. */
static void test_numbers(void) {
    const bytes chain = bytes_of(OF_NODES("#7=NODE($,#3);#3=NODE($,#12);#12=NODE($,$);#5=NODE($,#7);#9=NODE($,#5);"));
    const bytes renamed = bytes_of(OF_NODES("#1=NODE($,$);#3=NODE($,#2);#2=NODE($,#4);#4=NODE($,#5);#5=NODE($,#1);"));
    const bytes shorter = bytes_of(OF_NODES("#1=NODE($,$);#3=NODE($,#2);#2=NODE($,#4);#4=NODE($,#5);#5=NODE($,$);"));
    const bytes numbers = bytes_of(OF_NODES("#1=NODE($,#3);\n#2=NODE($,#4);\n#3=NODE($,#2);\n#4=NODE($,#5);\n#5=NODE($,$);\n"));
    const bytes circle = bytes_of(OF_NODES("#1=NODE($,#2);#2=NODE($,#1);"));
    const bytes other_circle = bytes_of(OF_NODES("#3=NODE($,#4);#4=NODE($,#3);"));
    const bytes refused = bytes_of(OF_NODES("#8=NODE($);"));
    p21_schema schema = P21_EMPTY;
    p21_text text = P21_EMPTY;
    p21_report report;
    uint8_t same = 7;
    judge(p21_schema_new((const uint8_t *)NODES, sizeof NODES - 1, &schema, &report) == P21_DONE, "a schema of nodes");
    judge(numbered(&schema, chain, &text, &report) == P21_DONE && is_text(&text, numbers.at, numbers.length) &&
              has_counts(&report, 5, numbers.length),
          "the numbered file of a chain");
    judge(numbered(&schema, renamed, &text, &report) == P21_DONE && is_text(&text, numbers.at, numbers.length), "that of the same chain");
    judge(numbered(&schema, numbers, &text, &report) == P21_DONE && is_text(&text, numbers.at, numbers.length), "a numbered file is its own");
    judge(numbered(&schema, circle, &text, &report) == P21_REFUSED && is_text(&text, numbers.at, numbers.length) &&
              report.subject == P21_FILE && report.number == P21_ALIKE && report.place == P21_INSTANCE && report.at == 1,
          "a circle has no numbers, and the text is as it was");
    judge(numbered(&schema, refused, &text, &report) == P21_REFUSED && report.number == P21_COUNT && report.at == 8, "a file that is refused");
    judge(same_but_for_names(&schema, chain, renamed, &same, &report) == P21_DONE && same == 1 && is_quiet(&report), "the same but for names");
    judge(same_but_for_names(&schema, chain, shorter, &same, &report) == P21_DONE && same == 0 && is_quiet(&report), "not the same but for names");
    judge(same_but_for_names(&schema, circle, circle, &same, &report) == P21_DONE && same == 1, "a circle is the same as itself");
    judge(same_but_for_names(&schema, circle, chain, &same, &report) == P21_DONE && same == 0, "a circle and a chain");
    same = 7;
    judge(same_but_for_names(&schema, other_circle, circle, &same, &report) == P21_REFUSED && same == 7 && report.subject == P21_FILE &&
              report.number == P21_ALIKE && report.place == P21_INSTANCE && report.at == 3,
          "nothing is said of two circles");
    judge(same_but_for_names(&schema, chain, refused, &same, &report) == P21_REFUSED && same == 7 && report.subject == P21_SECOND &&
              report.number == P21_COUNT,
          "the second is refused, whatever its names");
    judge(same_but_for_names(&schema, refused, chain, &same, &report) == P21_REFUSED && same == 7 && report.subject == P21_FILE,
          "the first is refused, whatever its names");
    p21_text_free(&text);
    p21_schema_free(&schema);
    judge(numbered(&schema, chain, &text, &report) == P21_MISUSED && text.inside == NULL && is_quiet(&report), "no schema to number by");
    judge(same_but_for_names(&schema, chain, chain, &same, &report) == P21_MISUSED && same == 7, "no schema to compare by but for names");
}

/* A file in pieces of a size, and what becomes of the session. */
static void test_session(p21_schema *schema, bytes file, size_t size) {
    p21_session session = P21_EMPTY;
    p21_text text = P21_EMPTY;
    p21_text whole = P21_EMPTY;
    p21_report report;
    judge(p21_session_new(schema, &session) == P21_DONE, "a session begins");
    for (size_t i = 0; i < file.length; i += size) {
        size_t length = file.length - i < size ? file.length - i : size;
        judge(p21_session_feed(&session, file.at + i, length, &report) == P21_DONE && is_quiet(&report), "a piece is taken");
    }
    judge(p21_accepted_write(&session, &text) == P21_MISUSED && text.inside == NULL, "a session is no accepted file yet");
    judge(p21_session_finish(&session, &report) == P21_DONE && has_counts(&report, 128, 4872), "a session ends");
    judge(p21_session_feed(&session, file.at, 1, &report) == P21_MISUSED && is_quiet(&report), "an accepted file takes no piece");
    judge(p21_session_finish(&session, &report) == P21_MISUSED, "an accepted file is at its end");
    judge(p21_accepted_line(&session, 1, &text) == P21_DONE &&
              is_text(&text, (const uint8_t *)"#1=DIMENSIONAL_EXPONENTS(1.,0.,0.);", 35),
          "the statement of an instance");
    judge(p21_accepted_line(&session, 1000, &text) == P21_REFUSED &&
              is_text(&text, (const uint8_t *)"#1=DIMENSIONAL_EXPONENTS(1.,0.,0.);", 35),
          "no instance of this name");
    judge(p21_accepted_write(&session, &text) == P21_DONE, "the file of a session");
    judge(p21_canonical(schema, file.at, file.length, &whole, &report) == P21_DONE, "the canonical file at once");
    const uint8_t *at = NULL;
    size_t length = 0;
    judge(p21_text_bytes(&whole, &at, &length) == P21_DONE && is_text(&text, at, length), "a session and one call give the same file");
    p21_text_free(&whole);
    p21_session_free(&session);
    judge(session.inside == NULL && is_text(&text, at, 0) == false && p21_accepted_write(&session, &whole) == P21_MISUSED,
          "a session that is let go holds nothing");
    p21_text_free(&text);
}

/* The canonical file of an accepted one by a buffer of a size, and once more. */
static void test_reading(p21_schema *schema, bytes file, size_t size) {
    p21_session session = P21_EMPTY;
    p21_text whole = P21_EMPTY;
    p21_report report;
    judge(p21_session_new(schema, &session) == P21_DONE && p21_session_feed(&session, file.at, file.length, &report) == P21_DONE, "a file is taken");
    const p21_cursor start = P21_START;
    p21_cursor cursor = start;
    uint8_t one = 7;
    size_t count = 7;
    judge(p21_accepted_read(&session, &cursor, &one, 1, &count) == P21_MISUSED && one == 7 && count == 7 && memcmp(&cursor, &start, sizeof start) == 0,
          "nothing is read of a session that hasn't ended, and all stays as it was");
    judge(p21_session_finish(&session, &report) == P21_DONE && p21_accepted_write(&session, &whole) == P21_DONE, "a session ends");
    const uint8_t *at = NULL;
    size_t length = 0;
    judge(p21_text_bytes(&whole, &at, &length) == P21_DONE && length == report.bytes, "the canonical file at once");
    uint8_t *buffer = malloc(size);
    if (buffer == NULL) {
        exit(2);
    }
    for (int turn = 0; turn < 2; turn++) {
        cursor = start;
        p21_cursor other = P21_START;
        size_t read = 0;
        do {
            size_t wanted = length - read < size ? length - read : size;
            /* Nothing is put into no room, nor behind what is put; and another cursor reads on by itself. */
            memset(buffer, 0xA5, size);
            judge(p21_accepted_read(&session, &cursor, buffer, 0, &count) == P21_DONE && count == 0 && buffer[0] == 0xA5, "no room");
            judge(p21_accepted_read(&session, &cursor, buffer, size, &count) == P21_DONE && count == wanted, "as many bytes as there is room for");
            judge(memcmp(buffer, at + read, count) == 0, "and these are the next ones of the canonical file");
            judge(count == size || buffer[count] == 0xA5, "the rest of the buffer stays as it was");
            judge(p21_accepted_read(&session, &other, &one, 1, &count) == P21_DONE, "another cursor");
            read += wanted;
        } while (read < length);
        judge(p21_accepted_read(&session, &cursor, buffer, size, &count) == P21_DONE && count == 0, "nothing is left, and none is put");
        size_t turns = (length + size - 1) / size;
        p21_cursor same = other;
        judge(turns == length || (p21_accepted_read(&session, &other, &one, 1, &count) == P21_DONE && count == 1 && one == at[turns]),
              "the other cursor stands where it read to");
        judge(turns == length || (p21_accepted_read(&session, &same, &one, 1, &count) == P21_DONE && count == 1 && one == at[turns]), "and its copy too");
    }
    free(buffer);
    p21_text_free(&whole);
    p21_session_free(&session);
    count = 7;
    judge(p21_accepted_read(&session, &cursor, &one, 1, &count) == P21_MISUSED && count == 7, "nothing is read of what was let go");
}

/* Cursors of any numbers read some end of the canonical file, or nothing. */
static void test_cursors(p21_schema *schema, bytes file) {
    static const size_t numbers[] = {0, 1, 2, 3, 4, 5, 17, 127, 128, 129, 130, SIZE_MAX / 2, SIZE_MAX - 1, SIZE_MAX};
    enum { COUNT = sizeof numbers / sizeof numbers[0] };
    p21_session session = P21_EMPTY;
    p21_text whole = P21_EMPTY;
    p21_report report;
    judge(p21_session_new(schema, &session) == P21_DONE && p21_session_feed(&session, file.at, file.length, &report) == P21_DONE &&
              p21_session_finish(&session, &report) == P21_DONE && p21_accepted_write(&session, &whole) == P21_DONE,
          "a file is accepted");
    const uint8_t *at = NULL;
    size_t length = 0;
    judge(p21_text_bytes(&whole, &at, &length) == P21_DONE, "its canonical file");
    uint8_t *buffer = malloc(length);
    if (buffer == NULL) {
        exit(2);
    }
    for (size_t i = 0; i < COUNT * COUNT * COUNT; i++) {
        p21_cursor cursor = {numbers[i / (COUNT * COUNT)], numbers[i / COUNT % COUNT], numbers[i % COUNT]};
        size_t count = length + 1;
        judge(p21_accepted_read(&session, &cursor, buffer, length, &count) == P21_DONE && count <= length &&
                  memcmp(buffer, at + (length - count), count) == 0,
              "a cursor of any numbers");
        judge(p21_accepted_read(&session, &cursor, buffer, length, &count) == P21_DONE && count == 0, "behind which nothing is left then");
    }
    free(buffer);
    p21_text_free(&whole);
    p21_session_free(&session);
}

static void test_refused_session(p21_schema *schema, bytes refused) {
    p21_session session = P21_EMPTY;
    p21_report report;
    judge(p21_session_new(schema, &session) == P21_DONE, "a session begins");
    judge(p21_session_feed(&session, refused.at, refused.length, &report) == P21_REFUSED && report.subject == P21_FILE &&
              report.number == P21_COUNT && report.place == P21_INSTANCE && report.at == 3,
          "a piece is refused");
    judge(p21_session_feed(&session, refused.at, 1, &report) == P21_REFUSED && report.number == P21_COUNT, "and again");
    judge(p21_session_finish(&session, &report) == P21_REFUSED && report.number == P21_COUNT && session.inside == NULL, "and at the end");
    p21_session_free(&session);
}

/* Another handle of a schema, which outlives the first one. */
static void test_shared(bytes express, bytes product) {
    p21_schema schema = P21_EMPTY;
    p21_schema shared = P21_EMPTY;
    p21_schema none = P21_EMPTY;
    p21_report report;
    judge(p21_schema_new(express.at, express.length, &schema, &report) == P21_DONE, "a schema is read");
    judge(p21_schema_share(&schema, &shared) == P21_DONE && shared.inside != NULL && shared.inside != schema.inside, "a schema is shared");
    judge(p21_check(&schema, product.at, product.length, &report) == P21_DONE && has_counts(&report, 128, 4872), "the first handle of a schema");
    p21_schema_free(&schema);
    judge(p21_check(&shared, product.at, product.length, &report) == P21_DONE && has_counts(&report, 128, 4872), "the handle that is left");
    judge(p21_schema_share(&none, &shared) == P21_MISUSED && p21_check(&shared, product.at, product.length, &report) == P21_DONE,
          "nothing is shared of an empty handle, and the other stays as it was");
    p21_schema_free(&shared);
    judge(schema.inside == NULL && shared.inside == NULL && p21_check(&shared, product.at, product.length, &report) == P21_MISUSED,
          "both are let go");
}

/* Is a text this one? */
static bool is_word(p21_text *text, const char *word) { return is_text(text, (const uint8_t *)word, strlen(word)); }

static bool is_nowhere(const p21_place *place) {
    static const p21_place nowhere;
    return place->byte == 0 && place->entity == 0 && place->attribute == 0 && place->levels == 0 && place->known == 0 && place->valued == 0 &&
           memcmp(place->indices, nowhere.indices, sizeof nowhere.indices) == 0;
}

/* Where a file of `examples` is refused. */
typedef struct spot {
    const char *name;
    uint8_t known;
    uint64_t byte;
    uint64_t line;
    uint64_t column;
    const char *attribute;
    uint32_t index;
} spot;

static bool is_spot(const p21_schema *schema, const p21_place *place, bytes file, const spot *wanted) {
    p21_position position = P21_FIRST;
    p21_text name = P21_EMPTY;
    bool is_named = wanted->attribute == NULL
                        ? place->valued == 0
                        : place->valued == 1 && p21_place_name(schema, place->entity, place->attribute, &name) == P21_DONE &&
                              is_word(&name, wanted->attribute);
    p21_text_free(&name);
    p21_move(&position, file.at, (size_t)place->byte);
    return is_named && place->known == wanted->known && place->byte == wanted->byte && position.line == wanted->line &&
           position.column == wanted->column && place->levels == (wanted->index > 0) && place->indices[0] == wanted->index;
}

/* A file in pieces of a size: its report and its place, wherever it is refused. */
static uint8_t refused_in_pieces(p21_schema *schema, bytes file, size_t size, p21_report *report, p21_place *place) {
    p21_session session = P21_EMPTY;
    judge(p21_session_new(schema, &session) == P21_DONE && p21_session_place(&session, place) == P21_DONE && is_nowhere(place), "no place yet");
    for (size_t i = 0; i < file.length; i += size) {
        size_t length = file.length - i < size ? file.length - i : size;
        uint8_t status = p21_session_feed(&session, file.at + i, length, report);
        if (status != P21_DONE) {
            p21_place last;
            p21_report again;
            judge(p21_session_place(&session, place) == P21_DONE, "the place of a piece that is refused");
            judge(p21_session_finish_located(&session, &again, &last) == status && again.number == report->number && last.byte == place->byte &&
                      last.known == place->known && last.valued == place->valued && last.attribute == place->attribute && session.inside == NULL,
                  "the same at the end");
            return status;
        }
    }
    uint8_t status = p21_session_finish_located(&session, report, place);
    p21_session_free(&session);
    return status;
}

static void test_places(const char *folder, p21_schema *schema, bytes product) {
    static const spot rows[] = {
        {"refused/BadByte.step", 1, 0, 1, 1, NULL, 0},
        {"refused/BadDirective.step", 1, 135, 5, 15, NULL, 0},
        {"refused/Count.step", 1, 355, 11, 31, "AXIS2_PLACEMENT_3D.REF_DIRECTION", 0},
        {"refused/Dangling.step", 0, 0, 1, 1, NULL, 0},
        {"refused/EndsEarly.step", 1, 332, 11, 24, NULL, 0},
        {"refused/Missing.step", 1, 289, 10, 11, "PERSON.ID", 0},
        {"refused/NotUtf8.step", 1, 263, 9, 19, NULL, 0},
        {"refused/SchemaName.step", 1, 202, 6, 14, NULL, 0},
        {"refused/UnknownEntity.step", 1, 312, 11, 4, NULL, 0},
        {"refused/WrongKind.step", 1, 278, 9, 30, "CARTESIAN_POINT.COORDINATES", 1},
    };
    p21_report report;
    p21_text text = P21_EMPTY;
    uint8_t same = 7;
    for (size_t i = 0; i < sizeof rows / sizeof rows[0]; i++) {
        bytes file = read_file(folder, rows[i].name);
        p21_place place;
        p21_report plain;
        judge(p21_check_located(schema, file.at, file.length, &report, &place) == P21_REFUSED && is_spot(schema, &place, file, &rows[i]), rows[i].name);
        judge(p21_check(schema, file.at, file.length, &plain) == P21_REFUSED && plain.number == report.number && plain.at == report.at &&
                  plain.place == report.place && plain.subject == report.subject,
              "the same report without a place");
        memset(&place, 0xA5, sizeof place);
        judge(p21_canonical_located(schema, file.at, file.length, &text, &report, &place) == P21_REFUSED && is_spot(schema, &place, file, &rows[i]) &&
                  text.inside == NULL,
              rows[i].name);
        memset(&place, 0xA5, sizeof place);
        judge(p21_same_located(schema, product.at, product.length, file.at, file.length, &same, &report, &place) == P21_REFUSED && same == 7 &&
                  report.subject == P21_SECOND && is_spot(schema, &place, file, &rows[i]),
              rows[i].name);
        memset(&place, 0xA5, sizeof place);
        judge(p21_same_located(schema, file.at, file.length, product.at, product.length, &same, &report, &place) == P21_REFUSED && same == 7 &&
                  report.subject == P21_FILE && is_spot(schema, &place, file, &rows[i]),
              rows[i].name);
        for (size_t size = 1; size <= 1000; size *= 10) {
            memset(&place, 0xA5, sizeof place);
            judge(refused_in_pieces(schema, file, size, &report, &place) == P21_REFUSED && is_spot(schema, &place, file, &rows[i]), rows[i].name);
        }
        free(file.at);
    }
    p21_place place;
    memset(&place, 0xA5, sizeof place);
    judge(p21_check_located(schema, product.at, product.length, &report, &place) == P21_DONE && has_counts(&report, 128, 4872) && is_nowhere(&place),
          "a file that is accepted has no place");
    memset(&place, 0xA5, sizeof place);
    judge(p21_canonical_located(schema, product.at, product.length, &text, &report, &place) == P21_DONE && has_counts(&report, 128, 4872) &&
              is_nowhere(&place),
          "nor has its canonical file");
    memset(&place, 0xA5, sizeof place);
    judge(p21_same_located(schema, product.at, product.length, product.at, product.length, &same, &report, &place) == P21_DONE && same == 1 &&
              is_quiet(&report) && is_nowhere(&place),
          "nor have two");
    memset(&place, 0xA5, sizeof place);
    judge(refused_in_pieces(schema, product, 4096, &report, &place) == P21_DONE && has_counts(&report, 128, 4872) && is_nowhere(&place),
          "nor has a session that ends well");
    judge(p21_place_name(schema, UINT32_MAX, 0, &text) == P21_REFUSED && p21_place_name(schema, 0, UINT32_MAX, &text) == P21_REFUSED,
          "the schema has no such attribute");
    p21_text_free(&text);
}

/* The line and the column of each byte of a text, by pieces of one byte and at once. */
static void test_lines(void) {
    static const char text[] = "ab\nc\r\n\rd\n\n";
    static const struct {
        size_t byte;
        uint64_t line;
        uint64_t column;
    } rows[] = {{0, 1, 1}, {1, 1, 2}, {2, 1, 3}, {3, 2, 1}, {4, 2, 2}, {6, 3, 1}, {7, 4, 1}, {8, 4, 2}, {9, 5, 1}, {10, 6, 1}};
    for (size_t i = 0; i < sizeof rows / sizeof rows[0]; i++) {
        p21_position at_once = P21_FIRST;
        p21_position by_bytes = P21_FIRST;
        p21_move(&at_once, (const uint8_t *)text, rows[i].byte);
        for (size_t j = 0; j < rows[i].byte; j++) {
            p21_move(&by_bytes, (const uint8_t *)text + j, 1);
        }
        judge(at_once.line == rows[i].line && at_once.column == rows[i].column, "the line and the column of a byte");
        judge(by_bytes.line == rows[i].line && by_bytes.column == rows[i].column, "the same byte by byte");
    }
}

/* The front and the end of a file. */
#define FRONT "ISO-10303-21;\nHEADER;\nFILE_DESCRIPTION((''),'2;1');\nFILE_NAME('','',(''),(''),'','','');\n" \
              "FILE_SCHEMA(('PRODUCT_MODEL'));\nENDSEC;\nDATA;\n"
#define END "ENDSEC;\nEND-ISO-10303-21;\n"

/* A file that is refused in many places, and its lines end in three ways. */
static const char broken[] = FRONT "#1=PERSON($,$,$,$);\n#2=DIRECTION('');\r\n"
                                   "#3=CARTESIAN_POINT('',(1.,2,3.));\r#4=AXIS2_PLACEMENT_3D('',#9,$,$);\n" END;

/* A file with a statement that has lost a parenthesis and one that has lost its end. */
static const char passed[] = FRONT "#1=PERSON($,$,$,$);\n#2=DIRECTION('';\n#3=DIRECTION('',(1.,0.,0.))\n"
                                   "#4=CARTESIAN_POINT('',(1.,2,3.));\n#5=AXIS2_PLACEMENT_3D('',#9,$,$);\n" END;

static void test_lists(p21_schema *schema, bytes product) {
    static const struct {
        uint8_t number;
        uint64_t at;
        uint64_t begins;
        spot spot;
    } rows[] = {
        {P21_MISSING, 1, 135, {"", 1, 145, 8, 11, "PERSON.ID", 0}},
        {P21_COUNT, 2, 155, {"", 1, 170, 9, 16, "DIRECTION.DIRECTION_RATIOS", 0}},
        {P21_WRONG_KIND, 3, 174, {"", 1, 200, 10, 27, "CARTESIAN_POINT.COORDINATES", 2}},
        {P21_DANGLING, 4, 0, {"", 0, 0, 1, 1, NULL, 0}},
    };
    static const struct {
        size_t length;
        uint64_t most;
        size_t count;
        uint8_t extent;
        uint8_t last;
        uint64_t read;
    } lists[] = {
        {sizeof broken - 1, UINT64_MAX, 4, P21_WHOLE, P21_DANGLING, 0},
        {sizeof broken - 1, 2, 2, P21_MOST, P21_COUNT, 0},
        {sizeof broken - 1, 0, 1, P21_MOST, P21_MISSING, 0},
        {sizeof broken - 20, UINT64_MAX, 4, P21_PART, P21_ENDS_EARLY, sizeof broken - 20},
        {sizeof broken - 22, UINT64_MAX, 4, P21_PART, P21_ENDS_EARLY, sizeof broken - 27},
        {0, UINT64_MAX, 1, P21_PART, P21_ENDS_EARLY, 0},
    };
    const bytes file = {(uint8_t *)broken, sizeof broken - 1};
    p21_list list = P21_EMPTY;
    p21_report report;
    p21_place place;
    size_t count = 7;
    uint8_t extent = 7;
    uint64_t told = 7;
    for (size_t i = 0; i < sizeof lists / sizeof lists[0]; i++) {
        judge(p21_survey(schema, file.at, lists[i].length, lists[i].most, &list, &report) == P21_DONE && is_quiet(&report), "a file is surveyed");
        judge(p21_list_count(&list, &count, &extent) == P21_DONE && count == lists[i].count && extent == lists[i].extent, "how many are refused");
        told = 7;
        if (extent == P21_PART) judge(p21_list_read(&list, &told) == P21_DONE && told == lists[i].read, "how many bytes are read");
        else judge(p21_list_read(&list, &told) == P21_REFUSED && told == 7, "no refusal ended the reading");
        judge(p21_list_refusal(&list, count - 1, &report, &place) == P21_DONE && report.number == lists[i].last, "the last one");
        report.number = 7;
        judge(p21_list_refusal(&list, count, &report, &place) == P21_REFUSED && report.number == 7, "none behind it, and all stays as it was");
        told = 7;
        judge(p21_list_begins(&list, count, &told) == P21_REFUSED && told == 7, "nor does its statement begin");
    }
    judge(p21_survey(schema, file.at, file.length, UINT64_MAX, &list, &report) == P21_DONE, "a file is surveyed whole");
    for (size_t i = 0; i < sizeof rows / sizeof rows[0]; i++) {
        memset(&place, 0xA5, sizeof place);
        judge(p21_list_refusal(&list, i, &report, &place) == P21_DONE && report.subject == P21_FILE && report.number == rows[i].number &&
                  report.place == P21_INSTANCE && report.at == rows[i].at && report.instances == 0 && report.bytes == 0,
              "a refusal of a list");
        judge(is_spot(schema, &place, file, &rows[i].spot), "its place");
        told = 7;
        if (rows[i].begins > 0) judge(p21_list_begins(&list, i, &told) == P21_DONE && told == rows[i].begins, "where its statement begins");
        else judge(p21_list_begins(&list, i, &told) == P21_REFUSED && told == 7, "a reference has no statement of its own");
    }
    judge(p21_survey(schema, product.at, product.length, UINT64_MAX, &list, &report) == P21_DONE && has_counts(&report, 128, 4872) &&
              p21_list_count(&list, &count, &extent) == P21_DONE && count == 0 && extent == P21_WHOLE &&
              p21_list_refusal(&list, 0, &report, &place) == P21_REFUSED && p21_list_read(&list, &told) == P21_REFUSED &&
              p21_list_begins(&list, 0, &told) == P21_REFUSED,
          "nothing is refused of a file that is accepted");
    p21_list_free(&list);
    judge(list.inside == NULL && p21_list_count(&list, &count, &extent) == P21_MISUSED && count == 0, "a list that is let go");
}

/* Lists that go on behind broken statements: of a reference to what isn't there they say nothing then. */
static void test_broken_statements(p21_schema *schema) {
    static const struct {
        uint8_t number;
        uint8_t where;
        uint64_t at;
        uint64_t begins;
        spot spot;
    } rows[] = {
        {P21_MISSING, P21_INSTANCE, 1, 135, {"", 1, 145, 8, 11, "PERSON.ID", 0}},
        {P21_UNEXPECTED, P21_STATEMENT, 9, 155, {"", 1, 170, 9, 16, NULL, 0}},
        {P21_UNEXPECTED, P21_STATEMENT, 10, 172, {"", 1, 200, 11, 1, NULL, 0}},
        {P21_WRONG_KIND, P21_INSTANCE, 4, 200, {"", 1, 226, 11, 27, "CARTESIAN_POINT.COORDINATES", 2}},
    };
    const bytes file = {(uint8_t *)passed, sizeof passed - 1};
    p21_list list = P21_EMPTY;
    p21_report report;
    p21_place place;
    size_t count = 7;
    uint8_t extent = 7;
    uint64_t told = 7;
    judge(p21_survey(schema, file.at, file.length, UINT64_MAX, &list, &report) == P21_DONE && is_quiet(&report), "a broken file is surveyed");
    judge(p21_list_count(&list, &count, &extent) == P21_DONE && count == sizeof rows / sizeof rows[0] && extent == P21_WHOLE, "to its end");
    judge(p21_list_read(&list, &told) == P21_REFUSED && told == 7, "no refusal ended the reading");
    for (size_t i = 0; i < sizeof rows / sizeof rows[0]; i++) {
        judge(p21_list_refusal(&list, i, &report, &place) == P21_DONE && report.number == rows[i].number && report.place == rows[i].where &&
                  report.at == rows[i].at,
              "a refusal behind a broken statement");
        judge(is_spot(schema, &place, file, &rows[i].spot), "its place");
        judge(p21_list_begins(&list, i, &told) == P21_DONE && told == rows[i].begins, "where its statement begins");
    }
    judge(p21_survey(schema, file.at, file.length, 3, &list, &report) == P21_DONE && p21_list_count(&list, &count, &extent) == P21_DONE &&
              count == 3 && extent == P21_MOST && p21_list_begins(&list, 2, &told) == P21_DONE && told == 172,
          "a list that ends with a broken statement");
    judge(p21_survey(schema, file.at, 199, UINT64_MAX, &list, &report) == P21_DONE && p21_list_count(&list, &count, &extent) == P21_DONE &&
              count == 3 && extent == P21_PART && p21_list_read(&list, &told) == P21_DONE && told == 172,
          "a file that ends in a statement behind a broken one");
    p21_list_free(&list);
}

/* Files by themselves. */
static void test_syntax(const char *folder, bytes product) {
    static const char header[] = "description: A block with six faces\nimplementation level: 2;1\nfile name: block.step\n"
                                 "time stamp: 2024-03-15T10:30:00\nauthor: Edda Kr\303\274ger\norganization: Block works\n"
                                 "preprocessor version: written by hand\noriginating system:\nauthorization: none\nschema: PRODUCT_MODEL\n";
    static const char keywords[] = "ADVANCED_FACE 6\nAXIS2_PLACEMENT_3D 7\nCALENDAR_DATE 1\nCARTESIAN_POINT 8\n";
    static const struct {
        const char *name;
        uint8_t number;
        uint64_t instances;
        uint8_t known;
        uint64_t byte;
    } rows[] = {
        {"refused/BadByte.step", P21_BAD_BYTE, 0, 1, 0},        {"refused/BadDirective.step", P21_BAD_DIRECTIVE, 0, 1, 135},
        {"refused/Count.step", 0, 3, 0, 0},                     {"refused/Dangling.step", P21_DANGLING, 0, 0, 0},
        {"refused/EndsEarly.step", P21_ENDS_EARLY, 0, 1, 332},  {"refused/Missing.step", 0, 2, 0, 0},
        {"refused/NotUtf8.step", P21_NOT_UTF8, 0, 1, 263},      {"refused/SchemaName.step", 0, 1, 0, 0},
        {"refused/UnknownEntity.step", 0, 3, 0, 0},             {"refused/WrongKind.step", 0, 1, 0, 0},
    };
    /* What stands inside a header record or the line of a section, and a name that stands twice. */
    static const struct {
        const char *behind;
        uint8_t number;
        uint64_t byte;
    } texts[] = {
        {"FILE_SCHEMA((''));ENDSEC;DATA;ENDSEC;END-ISO-10303-21;", P21_SCHEMA_NAME, 98},
        {"FILE_SCHEMA(($));ENDSEC;DATA;ENDSEC;END-ISO-10303-21;", P21_HEADER_SHAPE, 97},
        {"FILE_SCHEMA(('S'));ENDSEC;DATA('a',('S'));ENDSEC;DATA('a',('S'));ENDSEC;END-ISO-10303-21;", P21_SECTION_TWICE, 139},
        {"FILE_SCHEMA(('S'));ENDSEC;DATA;#1=A($);#2=B(#1);#01=A($);ENDSEC;END-ISO-10303-21;", P21_DUPLICATE_NAME, 133},
        {"FILE_SCHEMA(('S'));ENDSEC;DATA('a',('T'));ENDSEC;END-ISO-10303-21;", P21_SCHEMA_NAME, 121},
        {"FILE_SCHEMA(('S'));ENDSEC;DATA;#1=A(\"3\");ENDSEC;END-ISO-10303-21;", P21_BAD_BINARY, 123},
    };
    p21_text schema = P21_EMPTY, words = P21_EMPTY, counts = P21_EMPTY;
    p21_report report;
    p21_place place;
    memset(&place, 0xA5, sizeof place);
    judge(p21_syntax(product.at, product.length, &schema, &words, &counts, &report, &place) == P21_DONE && has_counts(&report, 128, 0) &&
              is_nowhere(&place),
          "a file is well formed");
    judge(is_word(&schema, "PRODUCT_MODEL"), "the name of its schema");
    judge(is_word(&words, header), "its header in words");
    const uint8_t *at = NULL;
    size_t length = 0;
    judge(p21_text_bytes(&counts, &at, &length) == P21_DONE && length > sizeof keywords && memcmp(at, keywords, sizeof keywords - 1) == 0, "its keywords");
    for (size_t i = 0; i < sizeof rows / sizeof rows[0]; i++) {
        bytes file = read_file(folder, rows[i].name);
        uint8_t status = p21_syntax(file.at, file.length, &schema, &words, &counts, &report, &place);
        judge(status == (rows[i].number > 0 ? P21_REFUSED : P21_DONE) && report.subject == (rows[i].number > 0 ? P21_FILE : 0) &&
                  report.number == rows[i].number && report.instances == rows[i].instances && report.bytes == 0,
              rows[i].name);
        judge(place.known == rows[i].known && place.byte == rows[i].byte && place.valued == 0 && place.levels == 0, rows[i].name);
        free(file.at);
    }
    judge(is_word(&schema, "PRODUCT_MODEL"), "a refusal leaves the texts as they were");
    for (size_t i = 0; i < sizeof texts / sizeof texts[0]; i++) {
        char file[512];
        int count = snprintf(file, sizeof file, "ISO-10303-21;HEADER;FILE_DESCRIPTION((''),'2;1');FILE_NAME('','',(''),(''),'','','');%s", texts[i].behind);
        judge(p21_syntax((const uint8_t *)file, (size_t)count, &schema, &words, &counts, &report, &place) == P21_REFUSED &&
                  report.number == texts[i].number && place.known == 1 && place.byte == texts[i].byte,
              texts[i].behind);
    }
    judge(p21_syntax(product.at, 0, &schema, &words, &counts, &report, &place) == P21_REFUSED && report.number == P21_ENDS_EARLY && place.known == 1 &&
              place.byte == 0,
          "no bytes are no file");
    p21_text_free(&schema);
    p21_text_free(&words);
    p21_text_free(&counts);
}

/* The refusals in words. */
static void test_words(void) {
    judge(strcmp(p21_refusal_name(P21_NOT_DISTINCT), "NotDistinct") == 0 && strcmp(p21_schema_refusal_name(P21_SCHEMA_CIRCULAR), "Circular") == 0,
          "the names of refusals");
    judge(strcmp(p21_refusal_sentence(P21_COUNT), "The record has another number of values than the entity.") == 0 &&
              strcmp(p21_schema_refusal_sentence(P21_SCHEMA_SYNTAX), "No declaration goes on so.") == 0,
          "their sentences");
    judge(p21_refusal_name(0) == NULL && p21_refusal_sentence(91) == NULL && p21_schema_refusal_name(10) == NULL &&
              p21_schema_refusal_sentence(0) == NULL,
          "numbers that no call answers");
    for (unsigned number = 0; number < 256; number++) {
        judge((p21_refusal_name((uint8_t)number) == NULL) == (p21_refusal_sentence((uint8_t)number) == NULL), "a name and no sentence");
    }
}

/* Handles that hold nothing, or something else. */
static void test_misuse(p21_schema *schema, bytes file) {
    p21_schema none = P21_EMPTY;
    p21_schema none_other = P21_EMPTY;
    p21_session session = P21_EMPTY;
    p21_text text = P21_EMPTY;
    p21_report report;
    uint8_t same = 7;
    const uint8_t *at = file.at;
    size_t length = 7;
    judge(p21_check(&none, file.at, file.length, &report) == P21_MISUSED && is_quiet(&report), "no schema to check by");
    judge(p21_canonical(&none, file.at, file.length, &text, &report) == P21_MISUSED && text.inside == NULL, "no schema to write by");
    judge(p21_same(&none, file.at, file.length, file.at, file.length, &same, &report) == P21_MISUSED && same == 7, "no schema to compare by");
    judge(p21_schema_share(&none, &none_other) == P21_MISUSED && none_other.inside == NULL, "no schema to share");
    judge(p21_schema_share((p21_schema *)&session, &none_other) == P21_MISUSED, "a session is no schema to share");
    judge(p21_session_new(&none, &session) == P21_MISUSED && session.inside == NULL, "no schema to begin by");
    judge(p21_session_feed(&session, file.at, file.length, &report) == P21_MISUSED, "no session to feed");
    judge(p21_session_finish(&session, &report) == P21_MISUSED, "no session to end");
    judge(p21_accepted_line(&session, 1, &text) == P21_MISUSED, "no file to look into");
    p21_place place;
    p21_list list = P21_EMPTY;
    uint8_t extent = 7;
    judge(p21_check_located(&none, file.at, file.length, &report, &place) == P21_MISUSED && is_quiet(&report) && is_nowhere(&place), "no schema to check by");
    judge(p21_canonical_located(&none, file.at, file.length, &text, &report, &place) == P21_MISUSED && text.inside == NULL, "no schema to write by");
    judge(p21_same_located(&none, file.at, file.length, file.at, file.length, &same, &report, &place) == P21_MISUSED && same == 7,
          "no schema to compare by");
    judge(p21_session_finish_located(&session, &report, &place) == P21_MISUSED && is_nowhere(&place), "no session to end");
    place.byte = 7;
    judge(p21_session_place(&session, &place) == P21_MISUSED && place.byte == 7, "no session that refused");
    judge(p21_session_place((p21_session *)schema, &place) == P21_MISUSED, "a schema is no session that refused");
    judge(p21_place_name(&none, 0, 0, &text) == P21_MISUSED && text.inside == NULL, "no schema to name by");
    judge(p21_survey(&none, file.at, file.length, 1, &list, &report) == P21_MISUSED && list.inside == NULL, "no schema to survey by");
    judge(p21_list_count((p21_list *)schema, &length, &extent) == P21_MISUSED && length == 7 && extent == 7, "a schema is no list");
    judge(p21_list_refusal(&list, 0, &report, &place) == P21_MISUSED, "no list to look into");
    uint64_t told = 7;
    judge(p21_list_read(&list, &told) == P21_MISUSED && p21_list_begins(&list, 0, &told) == P21_MISUSED && told == 7, "no list that is read");
    judge(p21_list_read((p21_list *)schema, &told) == P21_MISUSED && told == 7, "a schema is no list that is read");
    p21_cursor cursor = P21_START;
    uint8_t byte = 7;
    judge(p21_accepted_read(&session, &cursor, &byte, 1, &length) == P21_MISUSED && byte == 7 && length == 7, "no file to read on in");
    judge(p21_accepted_read((p21_session *)schema, &cursor, &byte, 1, &length) == P21_MISUSED && byte == 7 && length == 7, "a schema is no file");
    judge(p21_text_bytes(&text, &at, &length) == P21_MISUSED && at == file.at && length == 7, "no text");
    judge(p21_check((p21_schema *)&session, file.at, file.length, &report) == P21_MISUSED, "an empty session is no schema");
    judge(p21_session_new(schema, &session) == P21_DONE, "a session begins");
    judge(p21_check((p21_schema *)&session, file.at, file.length, &report) == P21_MISUSED, "a session is no schema");
    judge(p21_session_feed((p21_session *)schema, file.at, file.length, &report) == P21_MISUSED, "a schema is no session");
    judge(p21_check(schema, file.at, file.length, &report) == P21_DONE, "and stays what it is");
    p21_session_free(&session);
    p21_session_free(&session);
    p21_schema_free(&none);
    p21_text_free(&text);
}

int main(int count, char **words) {
    if (count != 2) {
        fprintf(stderr, "usage: calls FOLDER\n");
        return 2;
    }
    bytes express = read_file(words[1], "product.exp");
    bytes product = read_file(words[1], "product.step");
    bytes other = read_file(words[1], "product-other.step");
    bytes changed = read_file(words[1], "product-changed.step");
    bytes refused = read_file(words[1], "refused/Count.step");
    p21_schema schema = P21_EMPTY;
    p21_report report;
    test_version();
    test_schemas();
    judge(p21_schema_new(express.at, express.length, &schema, &report) == P21_DONE && is_quiet(&report), "a schema is read");
    test_shared(express, product);
    free(express.at);
    test_words();
    test_refusals(words[1], &schema);
    test_files(&schema, product, other, changed, refused);
    test_numbers();
    test_session(&schema, product, 1);
    test_session(&schema, other, 4096);
    test_reading(&schema, product, 1);
    test_reading(&schema, other, 7);
    test_reading(&schema, product, 4872);
    test_reading(&schema, product, 65536);
    test_cursors(&schema, product);
    test_lines();
    test_places(words[1], &schema, product);
    test_lists(&schema, product);
    test_broken_statements(&schema);
    test_syntax(words[1], product);
    test_refused_session(&schema, refused);
    test_misuse(&schema, product);

    /* A session keeps its schema. */
    p21_session session = P21_EMPTY;
    judge(p21_session_new(&schema, &session) == P21_DONE, "a session begins");
    p21_schema_free(&schema);
    judge(schema.inside == NULL, "a schema that is let go");
    judge(p21_session_feed(&session, product.at, product.length, &report) == P21_DONE, "a session whose schema is let go");
    judge(p21_session_finish(&session, &report) == P21_DONE && has_counts(&report, 128, 4872), "and its end");
    p21_session_free(&session);
    free(product.at);
    free(other.at);
    free(changed.at);
    free(refused.at);
    puts(wrong ? "something is wrong" : "all as it must be");
    return wrong;
}
