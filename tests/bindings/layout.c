/*
 * Holds the structs of the header against what the library writes: each has the header's size, and each field stands where the
 * header has it. The bytes around a struct stay as they were, and every byte of a field is written. It prints what is wrong; the
 * status is 1 where something is.
 *
 *   layout FOLDER VERSION      FOLDER is `examples`, VERSION that of the library
 */
#include <stdbool.h>
#include <stddef.h>
#include <stdio.h>
#include <stdlib.h>
#include <string.h>

#include "p21.h"

#define AROUND 64
#define LARGEST 65536

/* A field of a struct as the header has it, and the number that stands in it. */
typedef struct field {
    const char *name;
    size_t offset;
    size_t size;
    uint64_t number;
} field;

#define FIELD(type, name, number) {#type "." #name, offsetof(type, name), sizeof(((type *)0)->name), number}

static int wrong;

static void judge(bool holds, const char *what) {
    if (!holds) {
        printf("wrong: %s\n", what);
        wrong = 1;
    }
}

/* A place for a struct with room around it. All of it has one byte at first. */
typedef struct place {
    _Alignas(16) uint8_t before[AROUND];
    uint8_t at[AROUND];
} place;

static void fill(place *of, uint8_t byte) { memset(of, byte, sizeof *of); }

/* Do the fields of a struct of a size have their numbers, and the bytes around it that with which the place was filled? */
static bool has_fields(const place *of, uint8_t byte, const field *fields, size_t count, size_t size) {
    place wanted;
    fill(&wanted, byte);
    /* Between two fields any byte may stand. */
    memcpy(wanted.at, of->at, size);
    for (size_t i = 0; i < count; i++) {
        for (size_t j = 0; j < fields[i].size; j++) {
            wanted.at[fields[i].offset + j] = (uint8_t)(fields[i].number >> (8 * j));
        }
    }
    return memcmp(of, &wanted, sizeof wanted) == 0;
}

/* Two bytes to fill a place with: no number of a field has both. */
static const uint8_t fillings[] = {0xA5, 0x5A};

static void test_version(unsigned long major, unsigned long minor, unsigned long patch) {
    const field fields[] = {FIELD(p21_parts, major, major), FIELD(p21_parts, minor, minor), FIELD(p21_parts, patch, patch)};
    for (size_t i = 0; i < sizeof fillings; i++) {
        place of;
        fill(&of, fillings[i]);
        p21_version((p21_parts *)of.at);
        judge(has_fields(&of, fillings[i], fields, 3, sizeof(p21_parts)), "the fields of a version");
    }
}

/* A file that is refused, as the second of two: the numbers in the fields of its report are all different. */
static void test_refused(p21_schema *schema, const uint8_t *file, size_t length) {
    static const char anchor[] = "ISO-10303-21;HEADER;FILE_DESCRIPTION((''),'2;1');FILE_NAME('','',(''),(''),'','','');"
                                 "FILE_SCHEMA(('PRODUCT_MODEL'));ENDSEC;ANCHOR;";
    const field fields[] = {FIELD(p21_report, subject, P21_SECOND),
                            FIELD(p21_report, number, P21_LEFT_OUT),
                            FIELD(p21_report, absent, P21_ABSENT_ANCHOR),
                            FIELD(p21_report, place, P21_STATEMENT),
                            FIELD(p21_report, at, 7),
                            FIELD(p21_report, instances, 0),
                            FIELD(p21_report, bytes, 0)};
    for (size_t i = 0; i < sizeof fillings; i++) {
        place of;
        uint8_t same = 9;
        fill(&of, fillings[i]);
        judge(p21_same(schema, file, length, (const uint8_t *)anchor, sizeof anchor - 1, &same, (p21_report *)of.at) == P21_REFUSED && same == 9,
              "the second file is refused");
        judge(has_fields(&of, fillings[i], fields, 7, sizeof(p21_report)), "the fields of the report of a refused file");
    }
}

static void test_accepted(p21_schema *schema, const uint8_t *file, size_t length) {
    const field fields[] = {FIELD(p21_report, subject, 0),
                            FIELD(p21_report, number, 0),
                            FIELD(p21_report, absent, 0),
                            FIELD(p21_report, place, 0),
                            FIELD(p21_report, at, 0),
                            FIELD(p21_report, instances, 128),
                            FIELD(p21_report, bytes, 4872)};
    for (size_t i = 0; i < sizeof fillings; i++) {
        place of;
        fill(&of, fillings[i]);
        judge(p21_check(schema, file, length, (p21_report *)of.at) == P21_DONE, "the file is accepted");
        judge(has_fields(&of, fillings[i], fields, 7, sizeof(p21_report)), "the fields of the report of an accepted file");
    }
}

/* A value in an aggregate that is refused: the numbers in the fields of its place. */
static void test_place(p21_schema *schema) {
    static const char text[] = "ISO-10303-21;HEADER;FILE_DESCRIPTION((''),'2;1');FILE_NAME('','',(''),(''),'','','');"
                               "FILE_SCHEMA(('PRODUCT_MODEL'));ENDSEC;DATA;#1=CARTESIAN_POINT('',(1.,2,3.));";
    p21_report report;
    p21_place found;
    p21_text name = P21_EMPTY;
    judge(p21_check_located(schema, (const uint8_t *)text, sizeof text - 1, &report, &found) == P21_REFUSED, "a value is refused");
    judge(p21_place_name(schema, found.entity, found.attribute, &name) == P21_DONE, "it is of an attribute");
    p21_text_free(&name);
    for (size_t i = 0; i < sizeof fillings; i++) {
        const field fields[] = {FIELD(p21_place, byte, sizeof text - 8), FIELD(p21_place, entity, found.entity),
                                FIELD(p21_place, attribute, found.attribute), {"p21_place.indices", offsetof(p21_place, indices), 8, 2},
                                {"p21_place.indices", offsetof(p21_place, indices) + 8, 8, 0}, {"p21_place.indices", offsetof(p21_place, indices) + 16, 8, 0},
                                {"p21_place.indices", offsetof(p21_place, indices) + 24, 8, 0}, FIELD(p21_place, levels, 1),
                                FIELD(p21_place, known, 1), FIELD(p21_place, valued, 1)};
        place of;
        fill(&of, fillings[i]);
        judge(p21_check_located(schema, (const uint8_t *)text, sizeof text - 1, &report, (p21_place *)of.at) == P21_REFUSED, "the value is refused again");
        judge(has_fields(&of, fillings[i], fields, sizeof fields / sizeof fields[0], sizeof(p21_place)), "the fields of a place");
    }
}

/* A handle is a pointer and nothing else: the bytes around it stay as they were, and let go it is null. */
static bool is_handle(const place *of, uint8_t byte, bool is_empty) {
    place wanted;
    void *inside;
    memcpy(&inside, of->at, sizeof inside);
    fill(&wanted, byte);
    memcpy(wanted.at, of->at, sizeof inside);
    return memcmp(of, &wanted, sizeof wanted) == 0 && (inside == NULL) == is_empty;
}

static void empty(place *of, uint8_t byte) {
    fill(of, byte);
    memset(of->at, 0, sizeof(void *));
}

static void test_handles(p21_schema *schema, const uint8_t *express, size_t express_length, const uint8_t *file, size_t length) {
    judge(sizeof(p21_schema) == sizeof(void *) && sizeof(p21_session) == sizeof(void *) && sizeof(p21_text) == sizeof(void *) &&
              sizeof(p21_list) == sizeof(void *),
          "a handle is a pointer");
    for (size_t i = 0; i < sizeof fillings; i++) {
        p21_report report;
        place of_schema, of_session, of_text, of_list;
        empty(&of_schema, fillings[i]);
        empty(&of_session, fillings[i]);
        empty(&of_text, fillings[i]);
        empty(&of_list, fillings[i]);
        p21_schema *at_schema = (p21_schema *)of_schema.at;
        p21_session *at_session = (p21_session *)of_session.at;
        p21_text *at_text = (p21_text *)of_text.at;
        p21_list *at_list = (p21_list *)of_list.at;
        judge(p21_schema_new(express, express_length, at_schema, &report) == P21_DONE, "a schema is read");
        judge(p21_session_new(schema, at_session) == P21_DONE, "a session begins");
        judge(p21_canonical(schema, file, length, at_text, &report) == P21_DONE, "a text is handed out");
        judge(p21_survey(schema, file, length, 1, at_list, &report) == P21_DONE, "a list is handed out");
        judge(is_handle(&of_list, fillings[i], false), "the handle of a list");
        judge(is_handle(&of_schema, fillings[i], false), "the handle of a schema");
        judge(is_handle(&of_session, fillings[i], false), "the handle of a session");
        judge(is_handle(&of_text, fillings[i], false), "the handle of a text");
        p21_schema_free(at_schema);
        p21_session_free(at_session);
        p21_text_free(at_text);
        p21_list_free(at_list);
        judge(is_handle(&of_list, fillings[i], true), "the handle of a list that is let go");
        judge(is_handle(&of_schema, fillings[i], true), "the handle of a schema that is let go");
        judge(is_handle(&of_session, fillings[i], true), "the handle of a session that is let go");
        judge(is_handle(&of_text, fillings[i], true), "the handle of a text that is let go");
    }
}

/* A cursor that stands behind the last instance, and one that stands at the end. */
static void test_cursor(p21_schema *schema, const uint8_t *file, size_t length) {
    static const char end[] = "END-ISO-10303-21;\n";
    static uint8_t buffer[LARGEST];
    p21_session session = P21_EMPTY;
    p21_report report;
    judge(p21_session_new(schema, &session) == P21_DONE && p21_session_feed(&session, file, length, &report) == P21_DONE &&
              p21_session_finish(&session, &report) == P21_DONE && report.bytes < LARGEST,
          "the file is accepted");
    const size_t behind = (size_t)report.bytes - (sizeof end - 1);
    const p21_cursor start = P21_START;
    for (size_t i = 0; i < sizeof fillings; i++) {
        place of;
        size_t count = 0;
        fill(&of, fillings[i]);
        memcpy(of.at, &start, sizeof start);
        p21_cursor *cursor = (p21_cursor *)of.at;
        judge(p21_accepted_read(&session, cursor, buffer, behind, &count) == P21_DONE && count == behind, "all but the end");
        const field fields[] = {FIELD(p21_cursor, part, 1), FIELD(p21_cursor, line, 128), FIELD(p21_cursor, byte, cursor->byte)};
        judge(cursor->byte > 8 && cursor->byte < behind && has_fields(&of, fillings[i], fields, 3, sizeof(p21_cursor)), "the fields of a cursor");
        judge(p21_accepted_read(&session, cursor, buffer, LARGEST, &count) == P21_DONE && count == sizeof end - 1 && memcmp(buffer, end, count) == 0,
              "the end");
        const field last[] = {FIELD(p21_cursor, part, 2), FIELD(p21_cursor, line, 0), FIELD(p21_cursor, byte, sizeof end - 1)};
        judge(has_fields(&of, fillings[i], last, 3, sizeof(p21_cursor)), "the fields of a cursor at the end");
    }
    p21_session_free(&session);
}

static size_t read_into(uint8_t *into, const char *folder, const char *name) {
    char path[4096];
    snprintf(path, sizeof path, "%s/%s", folder, name);
    FILE *file = fopen(path, "rb");
    if (file == NULL) {
        perror(path);
        exit(2);
    }
    size_t length = fread(into, 1, LARGEST, file);
    fclose(file);
    return length;
}

int main(int count, char **words) {
    static uint8_t express[LARGEST], file[LARGEST];
    unsigned long major, minor, patch;
    if (count != 3 || sscanf(words[2], "%lu.%lu.%lu", &major, &minor, &patch) != 3) {
        fprintf(stderr, "usage: layout FOLDER VERSION\n");
        return 2;
    }
    size_t express_length = read_into(express, words[1], "product.exp");
    size_t length = read_into(file, words[1], "product.step");
    p21_schema schema = P21_EMPTY;
    p21_report report;
    judge(p21_schema_new(express, express_length, &schema, &report) == P21_DONE, "a schema is read");
    test_version(major, minor, patch);
    test_refused(&schema, file, length);
    test_accepted(&schema, file, length);
    test_cursor(&schema, file, length);
    test_place(&schema);
    test_handles(&schema, express, express_length, file, length);
    p21_schema_free(&schema);
    puts(wrong ? "something is wrong" : "all stands where the header has it");
    return wrong;
}
