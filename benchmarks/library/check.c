/*
 * Checks a file under a schema by the library, with both read into memory first, and prints what `p21 check` prints; then the
 * processor time that the call for the file took, in seconds.
 *
 *   check SCHEMA FILE
 */
#include <inttypes.h>
#include <stdio.h>
#include <stdlib.h>
#include <time.h>

#include "p21.h"

typedef struct bytes {
    uint8_t *at;
    size_t length;
} bytes;

static bytes read_file(const char *path) {
    FILE *file = fopen(path, "rb");
    if (file == NULL || fseek(file, 0, SEEK_END) != 0) {
        perror(path);
        exit(2);
    }
    bytes found = {NULL, (size_t)ftell(file)};
    rewind(file);
    found.at = malloc(found.length + 1);
    if (found.at == NULL || fread(found.at, 1, found.length, file) != found.length) {
        perror(path);
        exit(2);
    }
    fclose(file);
    return found;
}

static double processor_time(void) {
    struct timespec now;
    clock_gettime(CLOCK_PROCESS_CPUTIME_ID, &now);
    return (double)now.tv_sec + (double)now.tv_nsec / 1e9;
}

int main(int count, char **words) {
    if (count != 3) {
        fputs("usage: check SCHEMA FILE\n", stderr);
        return 2;
    }
    bytes express = read_file(words[1]);
    bytes file = read_file(words[2]);
    p21_schema schema = P21_EMPTY;
    p21_report report;
    if (p21_schema_new(express.at, express.length, &schema, &report) != P21_DONE) {
        fputs("the schema is refused\n", stderr);
        return 1;
    }
    double begun = processor_time();
    uint8_t status = p21_check(&schema, file.at, file.length, &report);
    double taken = processor_time() - begun;
    if (status != P21_DONE) {
        fputs("the file is refused\n", stderr);
        return 1;
    }
    printf("accepted, instances %" PRIu64 ", canonical bytes %" PRIu64 "\n%.6f\n", report.instances, report.bytes, taken);
    p21_schema_free(&schema);
    free(file.at);
    free(express.at);
    return 0;
}
