/*
 * The calls over the model in hand: what each answers of a handle that doesn't hold what it wants, of a number or a name that isn't
 * there, and where there is less room than there is to tell; that none of those that read takes memory, and none leaves a block, also
 * where memory is refused at any of the allocations (`counting.c`); that a file, its schema and its users outlive one another; and
 * that eight threads read one file and its users at once. It prints what is wrong; the status is 1 where something is.
 */
#include <pthread.h>
#include <stdbool.h>
#include <stdio.h>
#include <string.h>

#include "p21.h"

extern long counting_live(void);
extern long counting_taken(void);
extern void counting_refuse(long);

#define THREADS 8
#define ROUNDS 50

static const char schema_text[] =
    "SCHEMA s; TYPE label = STRING(3); END_TYPE; TYPE hue = ENUMERATION OF (red); END_TYPE; TYPE any = SELECT (label, b); END_TYPE; "
    "ENTITY a SUPERTYPE OF (ONEOF (b)); x : OPTIONAL REAL; y : LIST OF a; END_ENTITY; "
    "ENTITY b SUBTYPE OF (a); z : SET OF INTEGER; END_ENTITY; END_SCHEMA;";
static const char file_text[] = "ISO-10303-21;HEADER;FILE_DESCRIPTION((''),'2;1');FILE_NAME('','',(''),(''),'','','');"
                                "FILE_SCHEMA(('S'));ENDSEC;DATA;#2=A(1.,(#1));#1=B($,(#2,#2),(3,1,2));#3=(A(2.,(#2))B((4)));"
                                "ENDSEC;END-ISO-10303-21;";

static int wrong;

static void judge(bool holds, const char *what) {
    if (!holds) {
        printf("wrong: %s\n", what);
        wrong = 1;
    }
}

static const uint8_t *at(const char *text) { return (const uint8_t *)text; }

static bool is(p21_span span, const char *text) { return span.length == strlen(text) && memcmp(span.bytes, text, span.length) == 0; }

static void accept(p21_schema *schema, p21_session *session) {
    p21_report report;
    judge(p21_schema_new(at(schema_text), sizeof schema_text - 1, schema, &report) == P21_DONE, "a schema is read");
    judge(p21_session_new(schema, session) == P21_DONE && p21_session_feed(session, at(file_text), sizeof file_text - 1, &report) == P21_DONE &&
              p21_session_finish(session, &report) == P21_DONE,
          "a file is accepted");
}

/* All calls that want an accepted file, of a handle that holds none: what they would write stays as it was. */
static void test_no_file(const p21_session *session) {
    p21_line line = {7, {NULL, 7}};
    p21_span span = {NULL, 7};
    p21_attribute values[1] = {{7, 7, {NULL, 7}}};
    uint32_t entities[1] = {7};
    size_t count = 7;
    p21_schema schema = P21_EMPTY;
    p21_users users = P21_EMPTY;
    judge(p21_instance(session, 1, &line) == P21_MISUSED, "p21_instance of no file");
    judge(p21_instance_from(session, 0, &line) == P21_MISUSED, "p21_instance_from of no file");
    judge(p21_instance_section(session, 1, &span) == P21_MISUSED, "p21_instance_section of no file");
    judge(p21_instance_entities(session, 1, entities, 1, &count) == P21_MISUSED, "p21_instance_entities of no file");
    judge(p21_instance_values(session, 1, values, 1, &count) == P21_MISUSED, "p21_instance_values of no file");
    judge(p21_instance_value(session, 1, 0, 0, &span) == P21_MISUSED, "p21_instance_value of no file");
    judge(p21_accepted_schema(session, &schema) == P21_MISUSED && schema.inside == NULL, "p21_accepted_schema of no file");
    judge(p21_users_new(session, &users) == P21_MISUSED && users.inside == NULL, "p21_users_new of no file");
    judge(line.name == 7 && line.line.length == 7 && span.length == 7 && values[0].entity == 7 && entities[0] == 7 && count == 7,
          "what no file tells stays as it was");
}

/* All calls that want a schema, of a handle that holds none. */
static void test_no_schema(const p21_schema *schema) {
    p21_span span = {NULL, 7};
    uint32_t number = 7, other = 7, room[1] = {7};
    uint8_t answer = 7;
    size_t count = 7;
    p21_type type = {7, 7, 7, 7, 7, 7, 7, 7};
    p21_declared declared = {7, 7};
    p21_member member = {7, 7};
    judge(p21_schema_declares(schema, &span, &number, &other) == P21_MISUSED, "p21_schema_declares of none");
    judge(p21_entity_named(schema, at("A"), 1, &number) == P21_MISUSED, "p21_entity_named of none");
    judge(p21_entity_declares(schema, 0, &span, &answer, &number) == P21_MISUSED, "p21_entity_declares of none");
    judge(p21_entity_supertypes(schema, 1, room, 1, &count) == P21_MISUSED, "p21_entity_supertypes of none");
    judge(p21_entity_order(schema, 1, room, 1, &count) == P21_MISUSED, "p21_entity_order of none");
    judge(p21_entity_is(schema, 0, 0, &answer) == P21_MISUSED, "p21_entity_is of none");
    judge(p21_attribute_name(schema, 0, 0, &span) == P21_MISUSED, "p21_attribute_name of none");
    judge(p21_attribute_type(schema, 0, 0, 0, 0, &type) == P21_MISUSED, "p21_attribute_type of none");
    judge(p21_type_named(schema, at("LABEL"), 5, &number) == P21_MISUSED, "p21_type_named of none");
    judge(p21_type_declares(schema, 0, &span, &declared) == P21_MISUSED, "p21_type_declares of none");
    judge(p21_type_renames(schema, 0, 0, &type) == P21_MISUSED, "p21_type_renames of none");
    judge(p21_type_item(schema, 1, 0, &span) == P21_MISUSED, "p21_type_item of none");
    judge(p21_type_member(schema, 2, 0, &member) == P21_MISUSED, "p21_type_member of none");
    judge(p21_type_offers_entity(schema, 2, 0, &answer) == P21_MISUSED, "p21_type_offers_entity of none");
    judge(p21_type_offers_type(schema, 2, 0, &answer) == P21_MISUSED, "p21_type_offers_type of none");
    judge(span.length == 7 && number == 7 && other == 7 && room[0] == 7 && answer == 7 && count == 7 && type.kind == 7 && declared.count == 7 && member.number == 7,
          "what no schema tells stays as it was");
}

/* What isn't there, and values that are something else. */
static void test_refused(const p21_schema *schema, const p21_session *session) {
    p21_line line = {7, {NULL, 7}};
    p21_span span = {NULL, 7}, other = {NULL, 7};
    p21_attribute values[1];
    uint32_t number = 7, more = 7, room[1] = {7};
    uint64_t name = 7;
    uint8_t answer = 7;
    size_t count = 7;
    double nearest = 7;
    p21_digits digits = {7, 7, {NULL, 7}, {NULL, 7}};
    p21_type type = {7, 7, 7, 7, 7, 7, 7, 7};
    p21_declared declared = {7, 7};
    p21_member member = {7, 7};
    judge(p21_instance(session, 4, &line) == P21_REFUSED && p21_instance(session, 0, &line) == P21_REFUSED, "no such instance");
    judge(p21_instance_from(session, 4, &line) == P21_REFUSED, "no instance from there");
    judge(p21_instance_section(session, 4, &span) == P21_REFUSED, "no section of no instance");
    judge(p21_instance_entities(session, 4, room, 1, &count) == P21_REFUSED, "no set of no instance");
    judge(p21_instance_values(session, 4, values, 1, &count) == P21_REFUSED, "no values of no instance");
    judge(p21_instance_value(session, 4, 0, 0, &span) == P21_REFUSED && p21_instance_value(session, 2, 1, 0, &span) == P21_REFUSED &&
              p21_instance_value(session, 2, 0, 2, &span) == P21_REFUSED && p21_instance_value(session, 2, 9, 0, &span) == P21_REFUSED,
          "no value of no instance or attribute");
    judge(p21_entity_named(schema, at("C"), 1, &number) == P21_REFUSED && p21_entity_named(schema, at("a"), 1, &number) == P21_REFUSED, "no such entity");
    judge(p21_entity_declares(schema, 2, &span, &answer, &number) == P21_REFUSED && p21_entity_supertypes(schema, 2, room, 1, &count) == P21_REFUSED &&
              p21_entity_order(schema, 2, room, 1, &count) == P21_REFUSED && p21_entity_is(schema, 2, 0, &answer) == P21_REFUSED &&
              p21_entity_is(schema, 0, UINT32_MAX, &answer) == P21_REFUSED,
          "no entity of this number");
    judge(p21_attribute_name(schema, 0, 2, &span) == P21_REFUSED && p21_attribute_name(schema, 2, 0, &span) == P21_REFUSED &&
              p21_attribute_type(schema, 0, 0, 2, 0, &type) == P21_REFUSED && p21_attribute_type(schema, 0, 0, 0, 1, &type) == P21_REFUSED &&
              p21_attribute_type(schema, 9, 0, 0, 0, &type) == P21_REFUSED && p21_attribute_type(schema, 0, 0, 1, UINT32_MAX, &type) == P21_REFUSED,
          "no such attribute, and none so deep");
    judge(p21_type_named(schema, at("A"), 1, &number) == P21_REFUSED && p21_type_declares(schema, 3, &span, &declared) == P21_REFUSED &&
              p21_type_renames(schema, 3, 0, &type) == P21_REFUSED && p21_type_renames(schema, 1, 0, &type) == P21_REFUSED &&
              p21_type_renames(schema, 0, 1, &type) == P21_REFUSED,
          "no such type");
    judge(p21_type_item(schema, 1, 1, &span) == P21_REFUSED && p21_type_item(schema, 0, 0, &span) == P21_REFUSED && p21_type_item(schema, 3, 0, &span) == P21_REFUSED &&
              p21_type_member(schema, 2, 2, &member) == P21_REFUSED && p21_type_member(schema, 1, 0, &member) == P21_REFUSED &&
              p21_type_member(schema, 3, 0, &member) == P21_REFUSED,
          "no such item or member");
    judge(p21_type_offers_entity(schema, 3, 0, &answer) == P21_REFUSED && p21_type_offers_type(schema, 3, 0, &answer) == P21_REFUSED, "no select of this number");
    judge(p21_value_reference(at("12"), 2, &name) == P21_REFUSED && p21_value_typed(at("12"), 2, &span, &other) == P21_REFUSED &&
              p21_value_digits(at("'1'"), 3, &digits) == P21_REFUSED && p21_value_double(at("$"), 1, &nearest) == P21_REFUSED &&
              p21_next_element(at(")"), 1, &span, &other) == P21_REFUSED && p21_next_element(at(""), 0, &span, &other) == P21_REFUSED,
          "values that are something else");
    judge(line.name == 7 && span.length == 7 && other.length == 7 && number == 7 && more == 7 && room[0] == 7 && name == 7 && answer == 7 && count == 7 &&
              nearest == 7 && digits.exponent == 7 && type.number == 7 && declared.count == 7 && member.number == 7,
          "what is refused leaves all as it was");
}

/* Texts that are no values get some answer, and nothing around them is read: their memory has no byte more. */
static void test_any_text(void) {
    static const char *const texts[] = {"", "(", "((", "'", "''''", "#", "#9", "A", "A(", "A(1", "-", "1.", "\"", ".", "$$", "(1,", ")", ",", "'\\", "'\\X2\\00", "'\\X4\\0000"};
    for (size_t k = 0; k < sizeof texts / sizeof *texts; k++) {
        const uint8_t *text = at(texts[k]);
        const size_t length = strlen(texts[k]);
        p21_span first, rest;
        p21_digits digits;
        uint64_t name;
        uint32_t characters[8];
        size_t count = 9;
        double nearest;
        judge(p21_value_kind(text, length) <= P21_VALUE_TYPED, "a kind of any text");
        p21_value_elements(text, length, &rest);
        for (int steps = 0; p21_next_element(rest.bytes, rest.length, &first, &rest) == P21_DONE; steps++) {
            judge(steps <= 8, "the elements of any text end");
            if (steps > 8) break;
        }
        p21_value_reference(text, length, &name);
        p21_value_typed(text, length, &first, &rest);
        p21_value_digits(text, length, &digits);
        p21_value_double(text, length, &nearest);
        p21_value_characters(text, length, characters, 8, &count);
        judge(count <= 8, "the characters of any text");
    }
}

/* Less room than there is to tell. */
static void test_room(const p21_schema *schema, const p21_session *session, const p21_users *users) {
    p21_attribute values[4];
    p21_use uses[4];
    uint32_t numbers[4], characters[4];
    size_t count = 9;
    for (size_t room = 0; room <= 4; room++) {
        memset(values, 7, sizeof values);
        memset(uses, 7, sizeof uses);
        memset(numbers, 7, sizeof numbers);
        memset(characters, 7, sizeof characters);
        judge(p21_instance_values(session, 1, values, room, &count) == P21_DONE && count == (room < 3 ? room : 3), "values, as many as there is room for");
        for (size_t k = 0; k < 4; k++) judge(k < count || values[k].entity == 0x07070707, "no value behind the room");
        judge(p21_instance_entities(session, 1, numbers, room, &count) == P21_DONE && count == (room < 2 ? room : 2), "entities, as many as there is room for");
        for (size_t k = 0; k < 4; k++) judge(numbers[k] == (k < count ? k : 0x07070707), "entities in their order");
        judge(p21_users_of(users, 2, uses, room, &count) == P21_DONE && count == 2, "users are counted");
        for (size_t k = 0; k < 4; k++) judge(k < room && k < count ? uses[k].user == 1 + 2 * k && uses[k].entity == 0 && uses[k].index == 1 : uses[k].user != 1, "users in their order");
        memset(numbers, 7, sizeof numbers);
        judge(p21_entity_order(schema, 1, numbers, room, &count) == P21_DONE && count == 2, "the order is counted");
        for (size_t k = 0; k < 4; k++) judge(numbers[k] == (k < 2 && k < room ? k : 0x07070707), "the order, as far as there is room");
        p21_value_characters(at("'abc'"), 5, characters, room, &count);
        judge(count == (room < 3 ? room : 3), "characters, as many as there is room for");
        for (size_t k = 0; k < 4; k++) judge(characters[k] == (k < count ? 'a' + k : 0x07070707), "characters in their order");
    }
    judge(p21_users_of(users, 4, uses, 4, &count) == P21_DONE && count == 0, "nothing refers to what isn't there");
}

/* What is read of a file, its schema and its users: the same in each thread. */
static bool reads(const p21_schema *schema, const p21_session *session, const p21_users *users) {
    p21_line line;
    p21_attribute values[3];
    p21_use uses[4];
    p21_span name, value, element, rest;
    uint64_t target;
    size_t count;
    bool right = p21_instance(session, 1, &line) == P21_DONE && is(line.line, "#1=B($,(#2,#2),(1,2,3));") &&
                 p21_instance_from(session, 2, &line) == P21_DONE && line.name == 2 && p21_instance_section(session, 2, &value) == P21_DONE && is(value, "DATA;") &&
                 p21_instance_values(session, 1, values, 3, &count) == P21_DONE && count == 3 && is(values[0].value, "$") && is(values[1].value, "(#2,#2)") &&
                 values[2].entity == 1 && values[2].index == 0 && p21_instance_value(session, 1, 1, 0, &value) == P21_DONE && is(value, "(1,2,3)") &&
                 p21_attribute_name(schema, 1, 0, &name) == P21_DONE && is(name, "Z") && p21_users_of(users, 2, uses, 4, &count) == P21_DONE && count == 2 &&
                 uses[1].user == 3;
    p21_value_elements(values[1].value.bytes, values[1].value.length, &rest);
    for (int k = 0; k < 2; k++) {
        right = right && p21_next_element(rest.bytes, rest.length, &element, &rest) == P21_DONE && p21_value_kind(element.bytes, element.length) == P21_VALUE_REFERENCE &&
                p21_value_reference(element.bytes, element.length, &target) == P21_DONE && target == 2;
    }
    return right && p21_next_element(rest.bytes, rest.length, &element, &rest) == P21_REFUSED;
}

/* A file, its schema and its users outlive one another, in whatever order they are let go. */
static void test_orders(void) {
    for (int order = 0; order < 6; order++) {
        static const int orders[6][3] = {{0, 1, 2}, {0, 2, 1}, {1, 0, 2}, {1, 2, 0}, {2, 0, 1}, {2, 1, 0}};
        long before = counting_live();
        p21_schema given = P21_EMPTY, schema = P21_EMPTY;
        p21_session session = P21_EMPTY;
        p21_users users = P21_EMPTY;
        accept(&given, &session);
        p21_schema_free(&given);
        judge(p21_accepted_schema(&session, &schema) == P21_DONE && p21_users_new(&session, &users) == P21_DONE, "a file's schema and users");
        judge(reads(&schema, &session, &users), "all is read once the schema that was given is let go");
        for (int step = 0; step < 3; step++) {
            p21_line line;
            p21_span name;
            size_t count;
            p21_use uses[1];
            if (orders[order][step] == 0) p21_schema_free(&schema);
            if (orders[order][step] == 1) p21_session_free(&session);
            if (orders[order][step] == 2) p21_users_free(&users);
            judge(p21_instance(&session, 3, &line) == (session.inside == NULL ? P21_MISUSED : P21_DONE), "a file without the others");
            judge(p21_attribute_name(&schema, 1, 0, &name) == (schema.inside == NULL ? P21_MISUSED : P21_DONE), "a schema without the others");
            judge(p21_users_of(&users, 1, uses, 1, &count) == (users.inside == NULL ? P21_MISUSED : P21_DONE), "users without the others");
        }
        judge(counting_live() == before, "no block is left");
    }
}

/* Calls that read take no memory; those that fill a handle leave none where memory is refused. */
static void test_memory(const p21_schema *schema, const p21_session *session, const p21_users *users) {
    long taken = counting_taken(), live = counting_live();
    counting_refuse(1);
    judge(reads(schema, session, users), "all is read where there is no memory");
    counting_refuse(0);
    judge(counting_taken() == taken && counting_live() == live, "and no memory is asked for");
    long begun = counting_taken();
    p21_users made = P21_EMPTY;
    p21_schema shared = P21_EMPTY;
    judge(p21_users_new(session, &made) == P21_DONE && p21_accepted_schema(session, &shared) == P21_DONE, "handles are filled");
    long many = counting_taken() - begun;
    judge(many > 2, "filling handles takes memory");
    long failed = 0;
    for (long number = 1; number <= many; number++) {
        const void *users_inside = made.inside, *schema_inside = shared.inside;
        live = counting_live();
        counting_refuse(number);
        const uint8_t first = p21_users_new(session, &made);
        const uint8_t second = first == P21_DONE ? p21_accepted_schema(session, &shared) : P21_FAILED;
        counting_refuse(0);
        judge((first == P21_DONE || first == P21_FAILED) && (second == P21_DONE || second == P21_FAILED), "want of memory is answered");
        judge((first == P21_DONE) == (made.inside != users_inside) && (second == P21_DONE) == (shared.inside != schema_inside),
              "a handle that was to get something is as it was");
        judge(counting_live() == live, "no block is left where memory was refused");
        failed += second == P21_FAILED;
    }
    /* Only where room is given back of one of the three tables of users may a refusal be passed over. */
    judge(failed < many && failed + 3 >= many, "want of memory is passed over where room is given back, and nowhere else");
    p21_users_free(&made);
    p21_schema_free(&shared);
}

typedef struct worker {
    pthread_t thread;
    const p21_schema *schema;
    const p21_session *session;
    const p21_users *users;
    int right;
} worker;

static void *work(void *given) {
    worker *its = given;
    for (int round = 0; round < ROUNDS; round++) its->right += reads(its->schema, its->session, its->users);
    return NULL;
}

static void test_threads(const p21_schema *schema, const p21_session *session, const p21_users *users) {
    static worker workers[THREADS];
    for (int k = 0; k < THREADS; k++) {
        workers[k] = (worker){.schema = schema, .session = session, .users = users};
        judge(pthread_create(&workers[k].thread, NULL, work, &workers[k]) == 0, "a thread starts");
    }
    for (int k = 0; k < THREADS; k++) {
        judge(pthread_join(workers[k].thread, NULL) == 0 && workers[k].right == ROUNDS, "each thread finds what it must");
    }
}

int main(void) {
    setvbuf(stdout, NULL, _IONBF, 0);
    p21_schema schema = P21_EMPTY, none = P21_EMPTY;
    p21_session session = P21_EMPTY, empty = P21_EMPTY, begun = P21_EMPTY;
    p21_users users = P21_EMPTY, no_users = P21_EMPTY;
    p21_use use = {7, 7, 7};
    size_t count = 7;
    accept(&schema, &session);
    judge(p21_session_new(&schema, &begun) == P21_DONE, "a session begins");
    judge(p21_users_new(&session, &users) == P21_DONE, "users are found");
    test_no_file(&empty);
    test_no_file(&begun);
    test_no_schema(&none);
    judge(p21_users_of(&no_users, 1, &use, 1, &count) == P21_MISUSED && use.user == 7 && count == 7, "p21_users_of of none");
    test_refused(&schema, &session);
    test_any_text();
    test_room(&schema, &session, &users);
    test_orders();
    test_memory(&schema, &session, &users);
    p21_session_free(&begun);
    /* The C library keeps blocks of its own for threads. */
    const long live = counting_live();
    p21_users_free(&users);
    p21_session_free(&session);
    p21_schema_free(&schema);
    judge(counting_live() == 0 && live > 0, "no block is left at the end");
    accept(&schema, &session);
    judge(p21_users_new(&session, &users) == P21_DONE && counting_live() == live, "and the same blocks are taken again");
    test_threads(&schema, &session, &users);
    p21_users_free(&users);
    p21_session_free(&session);
    p21_schema_free(&schema);
    puts(wrong ? "something is wrong" : "the model is as it must be");
    return wrong;
}
