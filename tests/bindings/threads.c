/*
 * Eight threads use one handle of a schema at once, with no lock: for files, for sessions and for further handles, which each
 * thread frees as it goes. Then all of them read one accepted file at once. Run under helgrind it shows that no thread writes what
 * another one reads. Helgrind takes no order from an atomic number, as that by which the handles of a schema are counted: so there
 * the first handle is let go last, when all threads have ended. With `early` each thread has a handle of its own, the first one is
 * let go before they start, and the last of the threads lets go of the schema. It prints what is wrong; the status is 1 where
 * something is.
 *
 *   threads FOLDER [early]      FOLDER is `examples`
 */
#include <pthread.h>
#include <stdbool.h>
#include <stdio.h>
#include <stdlib.h>
#include <string.h>

#include "p21.h"

#define THREADS 8
#define ROUNDS 3
#define LARGEST 65536

/* A text that is read before any thread is started. */
typedef struct bytes {
    uint8_t at[LARGEST];
    size_t length;
} bytes;

static bytes express, product, other, refused;

/* A thread, with the handles that it uses, one of its own, and how many of its calls found what they must. */
typedef struct worker {
    pthread_t thread;
    const p21_schema *schema;
    const p21_session *accepted;
    const p21_list *list;
    p21_schema own;
    int right;
} worker;

static void read_into(bytes *into, const char *folder, const char *name) {
    char path[4096];
    snprintf(path, sizeof path, "%s/%s", folder, name);
    FILE *file = fopen(path, "rb");
    if (file == NULL) {
        perror(path);
        exit(2);
    }
    into->length = fread(into->at, 1, LARGEST, file);
    fclose(file);
}

/* Is the first statement behind a session the one that it must be? */
static bool has_line(const p21_session *session) {
    static const char wanted[] = "#1=DIMENSIONAL_EXPONENTS(1.,0.,0.);";
    p21_text line = P21_EMPTY;
    const uint8_t *at;
    size_t length;
    bool has = p21_accepted_line(session, 1, &line) == P21_DONE && p21_text_bytes(&line, &at, &length) == P21_DONE &&
               length == sizeof wanted - 1 && memcmp(at, wanted, length) == 0;
    p21_text_free(&line);
    return has;
}

/* Is the canonical file behind a session read whole, by a small buffer? */
static bool is_read(const p21_session *session) {
    p21_cursor cursor = P21_START;
    uint8_t buffer[100];
    size_t count = sizeof buffer, whole = 0;
    while (count > 0 && p21_accepted_read(session, &cursor, buffer, sizeof buffer, &count) == P21_DONE) {
        whole += count;
    }
    return count == 0 && whole == 4872;
}

/* Has a list the refusal that it must have, at its place? */
static bool has_refusal(const p21_list *list) {
    p21_report report;
    p21_place place;
    size_t count;
    uint8_t extent;
    return p21_list_count(list, &count, &extent) == P21_DONE && count == 1 && p21_list_refusal(list, 0, &report, &place) == P21_DONE &&
           report.number == P21_COUNT && place.byte == 355;
}

static void *work(void *given) {
    worker *its = given;
    for (int round = 0; round < ROUNDS; round++) {
        p21_report report;
        p21_schema shared = P21_EMPTY;
        p21_session session = P21_EMPTY;
        p21_text text = P21_EMPTY;
        p21_list list = P21_EMPTY;
        p21_place place;
        uint8_t same = 9;
        its->right += p21_check(its->schema, product.at, product.length, &report) == P21_DONE && report.instances == 128;
        its->right += p21_check(its->schema, refused.at, refused.length, &report) == P21_REFUSED && report.number == P21_COUNT;
        its->right += p21_same(its->schema, product.at, product.length, other.at, other.length, &same, &report) == P21_DONE && same == 1;
        its->right += p21_numbered(its->schema, other.at, other.length, &text, &report, &place) == P21_DONE && report.instances == 128;
        its->right += p21_canonical(its->schema, other.at, other.length, &text, &report) == P21_DONE && report.bytes == 4872;
        its->right += p21_schema_share(its->schema, &shared) == P21_DONE;
        its->right += p21_session_new(round == 0 ? its->schema : &shared, &session) == P21_DONE;
        p21_schema_free(&shared);
        its->right += p21_session_feed(&session, product.at, product.length, &report) == P21_DONE;
        its->right += p21_session_finish(&session, &report) == P21_DONE && has_line(&session) && is_read(&session);
        its->right += has_line(its->accepted) && is_read(its->accepted);
        its->right += p21_survey(its->schema, refused.at, refused.length, 9, &list, &report) == P21_DONE && has_refusal(&list);
        its->right += has_refusal(its->list);
        p21_list_free(&list);
        p21_session_free(&session);
        p21_text_free(&text);
    }
    p21_schema_free(&its->own);
    return NULL;
}

int main(int count, char **words) {
    bool is_early = count == 3 && strcmp(words[2], "early") == 0;
    if (count != 2 && !is_early) {
        fprintf(stderr, "usage: threads FOLDER [early]\n");
        return 2;
    }
    read_into(&express, words[1], "product.exp");
    read_into(&product, words[1], "product.step");
    read_into(&other, words[1], "product-other.step");
    read_into(&refused, words[1], "refused/Count.step");
    static worker workers[THREADS];
    p21_report report;
    p21_schema schema = P21_EMPTY;
    p21_session accepted = P21_EMPTY;
    p21_list list = P21_EMPTY;
    int right = p21_schema_new(express.at, express.length, &schema, &report) == P21_DONE;
    right += p21_session_new(&schema, &accepted) == P21_DONE;
    right += p21_session_feed(&accepted, product.at, product.length, &report) == P21_DONE;
    right += p21_session_finish(&accepted, &report) == P21_DONE;
    right += p21_survey(&schema, refused.at, refused.length, 9, &list, &report) == P21_DONE;
    for (int i = 0; i < THREADS; i++) {
        workers[i].schema = is_early ? &workers[i].own : &schema;
        workers[i].accepted = &accepted;
        workers[i].list = &list;
        right += !is_early || p21_schema_share(&schema, &workers[i].own) == P21_DONE;
    }
    if (is_early) {
        p21_schema_free(&schema);
    }
    for (int i = 0; i < THREADS; i++) {
        right += pthread_create(&workers[i].thread, NULL, work, &workers[i]) == 0;
    }
    for (int i = 0; i < THREADS; i++) {
        right += pthread_join(workers[i].thread, NULL) == 0;
    }
    p21_schema_free(&schema);
    p21_session_free(&accepted);
    p21_list_free(&list);
    for (int i = 0; i < THREADS; i++) {
        right += workers[i].right == 12 * ROUNDS && workers[i].own.inside == NULL;
    }
    bool is_right = right == 5 + 4 * THREADS;
    puts(is_right ? "each thread finds what it must" : "wrong: a call finds something else");
    return is_right ? 0 : 1;
}
