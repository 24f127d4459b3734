/*
 * Counts the blocks of memory that the calls of the library leave, by `counting.c`: once all handles are let go, in whatever order,
 * none is left; also where a call lets go of what a handle held, where something is refused, and where memory is refused at any of
 * the allocations. It prints what is wrong; the status is 1 where something is.
 *
 *   blocks FOLDER      FOLDER is `examples`
 */
#include <stdbool.h>
#include <stdio.h>
#include <stdlib.h>
#include <string.h>

#include "p21.h"

extern long counting_live(void);
extern long counting_taken(void);
extern long counting_refused(void);
extern void counting_refuse(long);

#define HANDLES 7
/* The orders of all but the last one, which stands among them at each place in turn. */
#define ORDERS 720
#define LARGEST 65536

/* A text that was read before anything is counted. */
typedef struct bytes {
    uint8_t at[LARGEST];
    size_t length;
} bytes;

static bytes product_schema, product, other, refused;

/* A schema and a file that take few allocations, so that each of them can be refused. */
static const char small_schema[] = "SCHEMA s; ENTITY a SUPERTYPE OF (ONEOF (b)); x : OPTIONAL REAL; y : LIST OF a; END_ENTITY; "
                                   "ENTITY b SUBTYPE OF (a); z : SET OF INTEGER; END_ENTITY; END_SCHEMA;";
static const char small_file[] = "ISO-10303-21;HEADER;FILE_DESCRIPTION((''),'2;1');FILE_NAME('','',(''),(''),'','','');"
                                 "FILE_SCHEMA(('S'));ENDSEC;DATA;#2=A(1.,(#1));#1=B($,(#2,#2),(3,1,2));#3=(A(2.,())B((4)));"
                                 "ENDSEC;END-ISO-10303-21;";

static int wrong;
static long most_live;

static void judge(bool holds, const char *what) {
    if (!holds) {
        printf("wrong: %s\n", what);
        wrong = 1;
    }
}

static void read_into(bytes *into, const char *folder, const char *name) {
    char path[4096];
    snprintf(path, sizeof path, "%s/%s", folder, name);
    FILE *file = fopen(path, "rb");
    if (file == NULL) {
        perror(path);
        exit(2);
    }
    into->length = fread(into->at, 1, LARGEST, file);
    fclose(file);
}

static const uint8_t *text_at(const char *text) { return (const uint8_t *)text; }

static void note_live(void) {
    if (counting_live() > most_live) {
        most_live = counting_live();
    }
}

/* One handle of each sort, in each state in which it holds something. */
typedef struct held {
    p21_schema schema;
    p21_schema shared;
    p21_session under_way;
    p21_session accepted;
    p21_text file;
    p21_text line;
    p21_list list;
} held;

static void fill(held *of, p21_report *report) {
    judge(p21_schema_new(product_schema.at, product_schema.length, &of->schema, report) == P21_DONE, "a schema is read");
    judge(p21_schema_share(&of->schema, &of->shared) == P21_DONE, "a schema is shared");
    judge(p21_session_new(&of->schema, &of->under_way) == P21_DONE, "a session begins");
    judge(p21_session_feed(&of->under_way, product.at, product.length / 2, report) == P21_DONE, "half a file is taken");
    judge(p21_session_new(&of->schema, &of->accepted) == P21_DONE, "another session begins");
    judge(p21_session_feed(&of->accepted, other.at, other.length, report) == P21_DONE, "a file is taken");
    judge(p21_session_finish(&of->accepted, report) == P21_DONE, "a session ends");
    judge(p21_accepted_write(&of->accepted, &of->file) == P21_DONE, "a file is handed out");
    judge(p21_accepted_line(&of->accepted, 1, &of->line) == P21_DONE, "a line is handed out");
    judge(p21_survey(&of->schema, refused.at, refused.length, UINT64_MAX, &of->list, report) == P21_DONE, "a list is handed out");
    note_live();
}

static void let_go(held *of, int handle) {
    switch (handle) {
    case 0:
        p21_schema_free(&of->schema);
        break;
    case 1:
        p21_schema_free(&of->shared);
        break;
    case 2:
        p21_session_free(&of->under_way);
        break;
    case 3:
        p21_session_free(&of->accepted);
        break;
    case 4:
        p21_text_free(&of->file);
        break;
    case 5:
        p21_text_free(&of->line);
        break;
    default:
        p21_list_free(&of->list);
    }
}

/* The order of this number of those in which all handles can be let go. */
static void order_of(int number, int order[HANDLES]) {
    int left[HANDLES - 1] = {0, 1, 2, 3, 4, 5};
    int last = number % HANDLES;
    for (int i = 0, many = HANDLES - 1; i < HANDLES; i++) {
        if (i == last) {
            order[i] = HANDLES - 1;
            continue;
        }
        int at = number % many;
        number /= many;
        many--;
        order[i] = left[at];
        memmove(&left[at], &left[at + 1], (size_t)(many - at) * sizeof left[0]);
    }
}

static void test_orders(void) {
    for (int number = 0; number < ORDERS; number++) {
        long before = counting_live();
        int order[HANDLES];
        order_of(number, order);
        held of = {P21_EMPTY, P21_EMPTY, P21_EMPTY, P21_EMPTY, P21_EMPTY, P21_EMPTY, P21_EMPTY};
        p21_report report;
        fill(&of, &report);
        for (int i = 0; i < HANDLES; i++) {
            long held_still = counting_live();
            let_go(&of, order[i]);
            /* What a schema has stays while another handle of it, or a session over it, lives. */
            judge(counting_live() < held_still, "what is let go is freed");
            let_go(&of, order[i]);
        }
        judge(counting_live() == before, "no block is left, in whatever order the handles are let go");
    }
}

/* An entity that has an attribute, by the place of a value that is refused. */
static uint32_t entity_of(const p21_schema *schema) {
    p21_report report;
    p21_place place;
    judge(p21_check_located(schema, refused.at, refused.length, &report, &place) == P21_REFUSED && place.valued == 1, "a value is refused");
    return place.entity;
}

/* Each call that hands something out lets go of what the handle held: whatever that was. */
static void test_replaced(void) {
    for (int kind = 0; kind < HANDLES; kind++) {
        for (int call = 0; call < 9; call++) {
            long before = counting_live();
            held of = {P21_EMPTY, P21_EMPTY, P21_EMPTY, P21_EMPTY, P21_EMPTY, P21_EMPTY, P21_EMPTY};
            p21_report report;
            fill(&of, &report);
            void *handles[HANDLES] = {&of.schema, &of.shared, &of.under_way, &of.accepted, &of.file, &of.line, &of.list};
            p21_schema schema = P21_EMPTY;
            judge(p21_schema_new(product_schema.at, product_schema.length, &schema, &report) == P21_DONE, "a schema is read");
            p21_session accepted = P21_EMPTY;
            judge(p21_session_new(&schema, &accepted) == P21_DONE, "a session begins");
            judge(p21_session_feed(&accepted, product.at, product.length, &report) == P21_DONE, "a file is taken");
            judge(p21_session_finish(&accepted, &report) == P21_DONE, "a session ends");
            p21_text further[2] = {P21_EMPTY, P21_EMPTY};
            p21_place place;
            uint8_t status;
            switch (call) {
            case 0:
                status = p21_schema_new(product_schema.at, product_schema.length, handles[kind], &report);
                break;
            case 1:
                status = p21_session_new(&schema, handles[kind]);
                break;
            case 2:
                status = p21_canonical(&schema, product.at, product.length, handles[kind], &report);
                break;
            case 3:
                status = p21_accepted_write(&accepted, handles[kind]);
                break;
            case 4:
                status = p21_schema_share(&schema, handles[kind]);
                break;
            case 5:
                status = p21_survey(&schema, refused.at, refused.length, 1, handles[kind], &report);
                break;
            case 6:
                status = p21_syntax(product.at, product.length, handles[kind], &further[0], &further[1], &report, &place);
                break;
            case 7:
                status = p21_place_name(&schema, entity_of(&schema), 0, handles[kind]);
                break;
            default:
                status = p21_accepted_line(&accepted, 1, handles[kind]);
            }
            judge(status == P21_DONE, "a call hands something out");
            p21_schema_free(&schema);
            p21_session_free(&accepted);
            p21_text_free(&further[0]);
            p21_text_free(&further[1]);
            for (int handle = 0; handle < HANDLES; handle++) {
                let_go(&of, handle);
            }
            judge(counting_live() == before, "no block is left of what a call replaced");
        }
    }
}

/* Calls that hand nothing out, and those that are refused or misused, leave no block. */
static void test_others(void) {
    static const char *const schemas[] = {"", "(* not closed", "SCHEMA s; END_SCHEMA",
                                          "SCHEMA s; ENTITY a; END_ENTITY; ENTITY A; END_ENTITY; END_SCHEMA;",
                                          "SCHEMA s; ENTITY a; x : foo; END_ENTITY; END_SCHEMA;",
                                          "SCHEMA s; ENTITY a SUBTYPE OF (b); END_ENTITY; ENTITY b SUBTYPE OF (a); END_ENTITY; END_SCHEMA;"};
    p21_report report;
    p21_parts version;
    long before = counting_live();
    p21_version(&version);
    judge(counting_live() == before, "a version has no block");
    for (size_t i = 0; i < sizeof schemas / sizeof schemas[0]; i++) {
        p21_schema schema = P21_EMPTY;
        judge(p21_schema_new(text_at(schemas[i]), strlen(schemas[i]), &schema, &report) == P21_REFUSED, "a schema is refused");
        judge(counting_live() == before, "a refused schema leaves no block");
    }
    p21_schema schema = P21_EMPTY;
    judge(p21_schema_new(product_schema.at, product_schema.length, &schema, &report) == P21_DONE, "a schema is read");
    long with_schema = counting_live();
    uint8_t same;
    p21_text text = P21_EMPTY;
    const uint8_t *at;
    size_t length;
    judge(p21_check(&schema, product.at, product.length, &report) == P21_DONE, "a file is accepted");
    judge(p21_check(&schema, refused.at, refused.length, &report) == P21_REFUSED, "a file is refused");
    judge(p21_check(&schema, product.at, 0, &report) == P21_REFUSED, "an empty file is refused");
    judge(p21_canonical(&schema, refused.at, refused.length, &text, &report) == P21_REFUSED, "a file isn't written");
    judge(p21_same(&schema, product.at, product.length, other.at, other.length, &same, &report) == P21_DONE, "files are compared");
    judge(p21_same(&schema, refused.at, refused.length, other.at, other.length, &same, &report) == P21_REFUSED, "the first is refused");
    judge(p21_same(&schema, product.at, product.length, refused.at, refused.length, &same, &report) == P21_REFUSED, "the second is refused");
    judge(p21_text_bytes(&text, &at, &length) == P21_MISUSED, "an empty handle has no text");
    p21_place place;
    p21_text words[2] = {P21_EMPTY, P21_EMPTY};
    judge(p21_check_located(&schema, refused.at, refused.length, &report, &place) == P21_REFUSED, "a file is refused at a place");
    judge(p21_canonical_located(&schema, refused.at, refused.length, &text, &report, &place) == P21_REFUSED, "a file isn't written, at a place");
    judge(p21_same_located(&schema, product.at, product.length, refused.at, refused.length, &same, &report, &place) == P21_REFUSED,
          "the second is refused at a place");
    judge(p21_numbered(&schema, refused.at, refused.length, &text, &report, &place) == P21_REFUSED, "a refused file gets no numbers");
    judge(p21_same_but_for_names(&schema, product.at, product.length, other.at, other.length, &same, &report, &place) == P21_DONE,
          "files are compared but for names");
    judge(p21_same_but_for_names(&schema, product.at, product.length, refused.at, refused.length, &same, &report, &place) == P21_REFUSED,
          "the second is refused, whatever its names");
    judge(p21_syntax(product.at, product.length / 2, &text, &words[0], &words[1], &report, &place) == P21_REFUSED, "a file isn't well formed");
    judge(p21_place_name(&schema, UINT32_MAX, 0, &text) == P21_REFUSED, "there is no such attribute");
    judge(counting_live() == with_schema, "a call that hands nothing out leaves no block");
    p21_session session = P21_EMPTY;
    judge(p21_session_feed((p21_session *)&schema, product.at, 1, &report) == P21_MISUSED, "a schema takes no piece");
    judge(p21_session_finish((p21_session *)&schema, &report) == P21_MISUSED, "a schema has no end");
    judge(p21_accepted_line((p21_session *)&schema, 1, &text) == P21_MISUSED, "a schema has no line");
    judge(p21_accepted_write((p21_session *)&schema, &text) == P21_MISUSED, "a schema is no file");
    judge(counting_live() == with_schema, "a misused handle keeps what it holds");
    judge(p21_session_new(&schema, &session) == P21_DONE, "a session begins");
    judge(p21_session_feed(&session, refused.at, refused.length, &report) == P21_REFUSED, "a piece is refused");
    judge(p21_session_place(&session, &place) == P21_DONE && place.known == 1, "it has a place");
    judge(p21_session_finish_located(&session, &report, &place) == P21_REFUSED, "a refused session ends");
    judge(counting_live() == with_schema, "the end of a refused session leaves no block");
    p21_schema_free(&schema);
    judge(counting_live() == before, "a schema is freed");
}

/* Is the canonical file of an accepted one read by a small buffer? */
static bool is_read(p21_session *accepted) {
    p21_cursor cursor = P21_START;
    uint8_t buffer[7];
    size_t count;
    do {
        if (p21_accepted_read(accepted, &cursor, buffer, sizeof buffer, &count) != P21_DONE) {
            return false;
        }
    } while (count > 0);
    return true;
}

/* What a small file says of itself. */
static bool is_told(p21_report *report) {
    p21_text texts[3] = {P21_EMPTY, P21_EMPTY, P21_EMPTY};
    p21_place place;
    bool is = p21_syntax(text_at(small_file), sizeof small_file - 1, &texts[0], &texts[1], &texts[2], report, &place) == P21_DONE;
    judge(is == (texts[0].inside != NULL) && is == (texts[1].inside != NULL) && is == (texts[2].inside != NULL), "all three texts or none");
    for (int i = 0; i < 3; i++) {
        p21_text_free(&texts[i]);
    }
    return is;
}

/* Each call once over a small file, until one of them has no memory. */
static bool is_done(held *of, p21_report *report) {
    const uint8_t *file = text_at(small_file);
    size_t length = sizeof small_file - 1;
    uint8_t same;
    p21_place place;
    return p21_schema_new(text_at(small_schema), sizeof small_schema - 1, &of->schema, report) == P21_DONE &&
           p21_schema_share(&of->schema, &of->shared) == P21_DONE && p21_check(&of->shared, file, length, report) == P21_DONE && p21_canonical(&of->schema, file, length, &of->file, report) == P21_DONE &&
           p21_same(&of->schema, file, length, file, length, &same, report) == P21_DONE && p21_session_new(&of->schema, &of->under_way) == P21_DONE &&
           p21_session_feed(&of->under_way, file, length / 2, report) == P21_DONE && p21_session_new(&of->schema, &of->accepted) == P21_DONE &&
           p21_session_feed(&of->accepted, file, length, report) == P21_DONE && p21_session_finish(&of->accepted, report) == P21_DONE &&
           p21_accepted_write(&of->accepted, &of->file) == P21_DONE && p21_accepted_line(&of->accepted, 1, &of->line) == P21_DONE &&
           is_read(&of->accepted) && p21_survey(&of->schema, file, length, UINT64_MAX, &of->list, report) == P21_DONE &&
           is_told(report) &&
           p21_check_located(&of->schema, file, length / 2, report, &place) == P21_REFUSED &&
           p21_place_name(&of->schema, 0, 0, &of->line) == P21_DONE;
}

static void test_want_of_memory(void) {
    held whole = {P21_EMPTY, P21_EMPTY, P21_EMPTY, P21_EMPTY, P21_EMPTY, P21_EMPTY, P21_EMPTY};
    p21_report report;
    long begun = counting_taken();
    judge(is_done(&whole, &report), "each call over the small file");
    long many = counting_taken() - begun;
    for (int handle = 0; handle < HANDLES; handle++) {
        let_go(&whole, handle);
    }
    judge(many > 100, "the calls take memory");
    for (long number = 1; number <= many; number++) {
        long before = counting_live();
        held of = {P21_EMPTY, P21_EMPTY, P21_EMPTY, P21_EMPTY, P21_EMPTY, P21_EMPTY, P21_EMPTY};
        counting_refuse(number);
        is_done(&of, &report);
        counting_refuse(0);
        for (int handle = 0; handle < HANDLES; handle++) {
            let_go(&of, handle);
        }
        judge(counting_live() == before, "no block is left where memory was refused");
    }
    judge(counting_refused() == many, "each allocation was refused once");
}

/* A schema that isn't shared for want of memory: the answer says so, and both handles are as they were. */
static void test_unshared(void) {
    p21_schema schema = P21_EMPTY;
    p21_schema shared = P21_EMPTY;
    p21_report report;
    judge(p21_schema_new(product_schema.at, product_schema.length, &schema, &report) == P21_DONE, "a schema is read");
    long begun = counting_taken();
    judge(p21_schema_share(&schema, &shared) == P21_DONE, "a schema is shared");
    long many = counting_taken() - begun;
    judge(many > 0, "sharing takes memory");
    for (long number = 1; number <= many; number++) {
        void *inside = shared.inside;
        long before = counting_live();
        counting_refuse(number);
        judge(p21_schema_share(&schema, &shared) == P21_FAILED, "want of memory is answered");
        counting_refuse(0);
        judge(shared.inside == inside && counting_live() == before, "a handle that was to get something is as it was");
        judge(p21_check(&schema, product.at, product.length, &report) == P21_DONE, "a schema that wasn't shared");
    }
    p21_schema_free(&schema);
    p21_schema_free(&shared);
}

/* A canonical file is read piece by piece where there is no memory at all. */
static void test_reading(void) {
    held of = {P21_EMPTY, P21_EMPTY, P21_EMPTY, P21_EMPTY, P21_EMPTY, P21_EMPTY, P21_EMPTY};
    p21_report report;
    fill(&of, &report);
    long taken = counting_taken();
    long before = counting_live();
    counting_refuse(1);
    judge(is_read(&of.accepted), "a canonical file is read without memory");
    counting_refuse(0);
    judge(counting_taken() == taken && counting_live() == before, "and no memory is asked for");
    for (int handle = 0; handle < HANDLES; handle++) {
        let_go(&of, handle);
    }
}

int main(int count, char **words) {
    if (count != 2) {
        fprintf(stderr, "usage: blocks FOLDER\n");
        return 2;
    }
    setvbuf(stdout, NULL, _IONBF, 0);
    read_into(&product_schema, words[1], "product.exp");
    read_into(&product, words[1], "product.step");
    read_into(&other, words[1], "product-other.step");
    read_into(&refused, words[1], "refused/Count.step");
    test_others();
    test_orders();
    test_replaced();
    test_want_of_memory();
    test_unshared();
    test_reading();
    judge(most_live > 0, "blocks are counted");
    puts(wrong ? "something is wrong" : "no block is left");
    return wrong;
}
