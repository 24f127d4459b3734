/*
 * Times what is asked of an accepted file in memory: instances SCHEMA FILE
 *
 * Prints five lines: the milliseconds of a processor for the canonical file of the file, for all its instances with all their values,
 * of each what it is and the number, the name or the characters that it holds, and for the table of who refers to whom; the
 * nanoseconds of a look-up by name, over 1,000,000 names that jump through the file; and how many values there are.
 */
#include <inttypes.h>
#include <stdio.h>
#include <stdlib.h>
#include <time.h>

#include "p21.h"

static const uint64_t LOOKUPS = 1000000;

static double milliseconds(clock_t begun) { return (double)(clock() - begun) * 1000 / CLOCKS_PER_SEC; }

static uint8_t *read_file(const char *path, size_t *length) {
    FILE *file = fopen(path, "rb");
    if (file == NULL || fseek(file, 0, SEEK_END) != 0) exit(2);
    const long size = ftell(file);
    uint8_t *text = malloc((size_t)size + 1);
    rewind(file);
    if (text == NULL || fread(text, 1, (size_t)size, file) != (size_t)size) exit(2);
    fclose(file);
    *length = (size_t)size;
    return text;
}

static void must(uint8_t status) {
    if (status != P21_DONE) exit(3);
}

/* What the values say, added up, so that no call is left out. */
static uint64_t sum, values;

static void add(p21_span value) {
    static uint32_t characters[4096];
    double nearest;
    uint64_t name;
    size_t count;
    p21_span inside, rest, keyword;
    values++;
    switch (p21_value_kind(value.bytes, value.length)) {
    case P21_VALUE_WHOLE:
    case P21_VALUE_REAL:
        must(p21_value_double(value.bytes, value.length, &nearest));
        sum += (uint64_t)(nearest > 0 ? nearest : -nearest) & 0xff;
        break;
    case P21_VALUE_REFERENCE:
        must(p21_value_reference(value.bytes, value.length, &name));
        sum += name;
        break;
    case P21_VALUE_TEXT:
        p21_value_characters(value.bytes, value.length, characters, 4096, &count);
        sum += count;
        break;
    case P21_VALUE_AGGREGATE:
        p21_value_elements(value.bytes, value.length, &rest);
        while (p21_next_element(rest.bytes, rest.length, &inside, &rest) == P21_DONE) add(inside);
        break;
    case P21_VALUE_TYPED:
        must(p21_value_typed(value.bytes, value.length, &keyword, &inside));
        add(inside);
        break;
    default:
        sum++;
    }
}

int main(int count, char **words) {
    if (count != 3) return 2;
    size_t express_length, length;
    uint8_t *express = read_file(words[1], &express_length), *file = read_file(words[2], &length);
    p21_schema schema = P21_EMPTY;
    p21_session accepted = P21_EMPTY;
    p21_text text = P21_EMPTY;
    p21_users users = P21_EMPTY;
    p21_report report;
    must(p21_schema_new(express, express_length, &schema, &report));
    clock_t begun = clock();
    must(p21_canonical(&schema, file, length, &text, &report));
    printf("%.0f\n", milliseconds(begun));
    p21_text_free(&text);
    must(p21_session_new(&schema, &accepted));
    must(p21_session_feed(&accepted, file, length, &report));
    must(p21_session_finish(&accepted, &report));
    const uint64_t instances = report.instances;
    begun = clock();
    static p21_attribute room[4096];
    p21_line line;
    for (uint64_t least = 0; p21_instance_from(&accepted, least, &line) == P21_DONE; least = line.name + 1) {
        size_t found;
        must(p21_instance_values(&accepted, line.name, room, 4096, &found));
        for (size_t at = 0; at < found; at++) add(room[at].value);
    }
    printf("%.0f\n", milliseconds(begun));
    begun = clock();
    must(p21_users_new(&accepted, &users));
    printf("%.0f\n", milliseconds(begun));
    begun = clock();
    for (uint64_t at = 0; at < LOOKUPS; at++) sum += p21_instance(&accepted, at * 7919 % instances + 1, &line);
    printf("%.0f\n", milliseconds(begun) * 1e6 / (double)LOOKUPS);
    printf("%" PRIu64 "\n", values);
    fprintf(stderr, "%" PRIu64 "\n", sum);
    p21_users_free(&users);
    p21_session_free(&accepted);
    p21_schema_free(&schema);
    free(express);
    free(file);
    return 0;
}
