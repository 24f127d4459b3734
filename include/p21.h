/*
 * p21: whether two STEP files (ISO 10303-21) hold the same model.
 *
 * A schema is read from its EXPRESS text. Under it a file is checked, its canonical file is given, and two files are
 * compared; a session reads a file that comes in pieces. What these words mean is said in docs/DEFINITIONS.md, and
 * docs/LIBRARY.md has a whole program.
 *
 * Handles. A schema, a session, a list and a text are each kept in a struct of one pointer. It begins as P21_EMPTY, and from then on
 * the calls alone change it: it isn't copied, written or compared. A call that hands something out lets go of what the handle
 * held before. The call that frees it leaves it empty, and an empty handle may be freed.
 *
 * Threads. A call that takes a handle as `const` only reads it: any number of threads may be in such calls with one handle at
 * once, with no lock. A call that takes it otherwise changes it, and has it alone: it is in no other call meanwhile, and a lock,
 * or the start or the end of a thread, orders that call and those before and behind it. Different handles may be in calls of
 * different threads at once.
 *
 * What a caller owes, since no call can test it: no pointer is null, also where the length is 0; a text of a length has as
 * many bytes, which don't change during the call; a buffer has as many bytes as its room; what a call writes lies apart from all
 * else that it is passed; two handles of one call are different ones; nobody frees or changes a handle while another call has it;
 * and no call is made from a signal handler, or in the child of a fork of a process that has threads, unless it runs another
 * program.
 *
 * What a call answers is a status. P21_REFUSED and P21_FAILED come with a report, and then nothing is handed out: what stood
 * in the handle or in the place of the answer is as it was.
 *
 * To link: libp21.so or libp21.a. pkg-config and CMake know the library as p21. C++ has p21.hpp above it.
 */
#ifndef P21_H
#define P21_H

#include <stddef.h>
#include <stdint.h>

/* The version that this header belongs to; p21_version answers that of the library that is linked. */
#define P21_VERSION_MAJOR 0
#define P21_VERSION_MINOR 1
#define P21_VERSION_PATCH 0
#define P21_VERSION "0.1.0"

#ifdef __cplusplus
extern "C" {
#endif

/* A schema. */
typedef struct p21_schema {
    void *inside;
} p21_schema;

/* A session, and the accepted file that it ends in. */
typedef struct p21_session {
    void *inside;
} p21_session;

/* Bytes that the library hands out. */
typedef struct p21_text {
    void *inside;
} p21_text;

/* What is refused of a file. */
typedef struct p21_list {
    void *inside;
} p21_list;

/* A handle that holds nothing. */
#define P21_EMPTY { NULL }

/*
 * Where a reading of a canonical file stands. It begins as P21_START, and p21_accepted_read alone changes it. It holds nothing: it
 * may be copied, and thrown away.
 */
typedef struct p21_cursor {
    size_t part;
    size_t line;
    size_t byte;
} p21_cursor;

/* A cursor at the beginning. */
#define P21_START { 0, 0, 0 }

/* Statuses. */
enum {
    P21_DONE = 0,    /* it is done */
    P21_REFUSED = 1, /* the schema or the file is refused, or there is no such instance */
    P21_MISUSED = 2, /* a handle holds nothing, or something else than the call wants */
    P21_FAILED = 3   /* there was no memory */
};

/* What is refused: `subject` of a report. */
enum {
    P21_SCHEMA = 1, /* the schema: the number is one of S1 to S9 */
    P21_FILE = 2,   /* the file, or the first of two */
    P21_SECOND = 3  /* the second of two files */
};

/* Where it is refused: `place` of a report. */
enum {
    P21_STATEMENT = 1, /* at a statement: `at` is its number, counted from 1 */
    P21_INSTANCE = 2   /* in an instance: `at` is its name */
};

/*
 * Why something is refused, and where; or the counts of an accepted file. Each call that takes a report writes all of it.
 * What doesn't apply is 0.
 */
typedef struct p21_report {
    uint8_t subject;    /* what is refused */
    uint8_t number;     /* the number of the refusal (docs/FAULTS.md) */
    uint8_t absent;     /* where the number is P21_LEFT_OUT: what is left out */
    uint8_t place;      /* what `at` is */
    uint64_t at;        /* the number of the statement, or the name of the instance */
    uint64_t instances; /* how many instances an accepted file has */
    uint64_t bytes;     /* how many bytes its canonical file has */
} p21_report;

/*
 * Where in a file a refusal stands. Each call that takes a place writes all of it. What isn't known is 0: all of it where nothing
 * is refused, and the byte of a reference that isn't served (P21_DANGLING, P21_WRONG_TARGET), of which only the file can say it.
 */
typedef struct p21_place {
    uint64_t byte;       /* how many bytes of the file stand in front of it; p21_move gives its line and column */
    uint32_t entity;     /* the attribute whose value is refused: the number of the entity that declares it, and its own one; */
    uint32_t attribute;  /* p21_place_name has the names */
    uint32_t indices[8]; /* which element of the value: the way there through the aggregates, the outermost first, each from 1 on */
    uint8_t levels;      /* how many indices there are */
    uint8_t known;       /* 1 where `byte` is known */
    uint8_t valued;      /* 1 where a value of an attribute is refused */
} p21_place;

/* How much of a file a list is about. */
enum {
    P21_WHOLE = 1, /* all of it */
    P21_PART = 2,  /* as far as to the last refusal, which ended the reading; p21_list_read says how many bytes these are */
    P21_MOST = 3   /* as far as to the last refusal, since no more were asked for */
};

/* Made from docs/FAULTS.md by making/make-refusals, up to the mark of the end: edit the document. */
/* The refusals of files, as docs/FAULTS.md explains them. */
enum {
    P21_BAD_BYTE = 1,
    P21_OPEN_STRING = 2,
    P21_OPEN_COMMENT = 3,
    P21_BAD_DIRECTIVE = 4,
    P21_BAD_CODE_POINT = 5,
    P21_NOT_UTF8 = 6,
    P21_BAD_NUMBER = 7,
    P21_NUMBER_RANGE = 8,
    P21_BAD_BINARY = 9,
    P21_NAME_RANGE = 10,
    P21_BAD_NAME = 11,
    P21_UNEXPECTED = 20,
    P21_TOO_DEEP = 21,
    P21_RECORD_TOO_LONG = 22,
    P21_FILE_TOO_LONG = 23,
    P21_ENDS_EARLY = 24,
    P21_AFTER_END = 25,
    P21_LEFT_OUT = 26,
    P21_CANONICAL_TOO_LONG = 27,
    P21_HEADER_SHAPE = 30,
    P21_SCHEMA_NAME = 31,
    P21_SECTION_SHAPE = 32,
    P21_SECTION_TWICE = 33,
    P21_DUPLICATE_NAME = 40,
    P21_UNKNOWN_ENTITY = 41,
    P21_ABSTRACT = 42,
    P21_PART_MISSING = 43,
    P21_PART_TWICE = 44,
    P21_COUNT = 45,
    P21_MISSING = 46,
    P21_STAR_NOT_DERIVED = 47,
    P21_DERIVED_NOT_STAR = 48,
    P21_WRONG_KIND = 49,
    P21_WIDTH = 50,
    P21_BOUNDS = 51,
    P21_NOT_DISTINCT = 52,
    P21_UNKNOWN_ITEM = 53,
    P21_SELECT_TYPE = 54,
    P21_TWO_REDECLARATIONS = 55,
    P21_DANGLING = 56,
    P21_WRONG_TARGET = 57,
    P21_ONE_OF = 58,
    P21_ALIKE = 59,
    P21_NO_MEMORY = 90
};

/* The refusals of schemas, S1 to S9. */
enum {
    P21_SCHEMA_TOKEN = 1,
    P21_SCHEMA_SYNTAX = 2,
    P21_SCHEMA_DUPLICATE = 3,
    P21_SCHEMA_UNKNOWN_NAME = 4,
    P21_SCHEMA_CIRCULAR = 5,
    P21_SCHEMA_LEFT_OUT = 6,
    P21_SCHEMA_BOUNDS = 7,
    P21_SCHEMA_REDECLARED_PLACE = 8,
    P21_SCHEMA_TOO_LARGE = 9
};

/* What is left out: `absent` of a report. */
enum {
    P21_ABSENT_USER_KEYWORD = 1,
    P21_ABSENT_SCOPE = 2,
    P21_ABSENT_CONSTANT_NAME = 3,
    P21_ABSENT_VALUE_NAME = 4,
    P21_ABSENT_ANCHOR = 5,
    P21_ABSENT_REFERENCE = 6,
    P21_ABSENT_SIGNATURE = 7,
    P21_ABSENT_SECOND_SECTION = 8,
    P21_ABSENT_NO_DATA_SECTION = 9
};
/* The end of what making/make-refusals makes. */

/* The parts of a version. */
typedef struct p21_parts {
    uint32_t major;
    uint32_t minor;
    uint32_t patch;
} p21_parts;

/* Writes the version of the library, which is that of the program. */
void p21_version(p21_parts *version);

/* Hands out the schema that a text declares. P21_REFUSED: the text declares none, and the report says why. */
uint8_t p21_schema_new(const uint8_t *text, size_t length, p21_schema *schema, p21_report *report);

/*
 * Hands out another handle of a schema, so that whoever has one may free it. Nothing of the schema is copied, and it lives until
 * the last of its handles and sessions is let go. It has no report: P21_FAILED where there was no memory.
 */
uint8_t p21_schema_share(const p21_schema *schema, p21_schema *shared);

/* Lets go of a schema. Other handles of it, and sessions over it, keep what they need. */
void p21_schema_free(p21_schema *schema);

/*
 * Whether a file is accepted under a schema. P21_DONE: it is, and the report has its counts. P21_REFUSED: it isn't. The file
 * isn't copied.
 */
uint8_t p21_check(const p21_schema *schema, const uint8_t *file, size_t length, p21_report *report);

/*
 * Hands out the canonical file of a file. P21_DONE: the report has the counts. P21_REFUSED: the file isn't accepted. The file
 * isn't copied.
 */
uint8_t p21_canonical(const p21_schema *schema, const uint8_t *file, size_t length, p21_text *text, p21_report *report);

/*
 * Whether two files mean the same: `same` is 1 or 0. P21_REFUSED: one of them isn't accepted, and `subject` says which; the
 * second is read where the first is accepted. They aren't copied.
 */
uint8_t p21_same(const p21_schema *schema, const uint8_t *first, size_t first_length, const uint8_t *second, size_t second_length,
                 uint8_t *same, p21_report *report);

/*
 * Hands out the numbered file of a file: its canonical file whose instances have for names the numbers 1 to n that the model itself
 * gives them, whatever names an exporter gave (docs/CANONICAL.md). P21_DONE: the report has the counts, and the bytes are those of the
 * numbered file. P21_REFUSED: the file isn't accepted; or P21_ALIKE, behind all other refusals: its model doesn't tell the instance from
 * another one, and they are no copies that may be exchanged. `place` is as of the calls with `_located`. The file isn't copied, but its
 * canonical text is made meanwhile.
 */
uint8_t p21_numbered(const p21_schema *schema, const uint8_t *file, size_t length, p21_text *text, p21_report *report,
                     p21_place *place);

/*
 * Whether two files mean the same but for the names of their instances: `same` is 1 or 0. A file is the same as itself; where one of
 * two has a numbered file and the other one hasn't, they aren't the same. P21_REFUSED: one of them isn't accepted, and `subject` says
 * which, of which `place` is too; or P21_ALIKE in the first one, where neither has numbers.
 */
uint8_t p21_same_but_for_names(const p21_schema *schema, const uint8_t *first, size_t first_length, const uint8_t *second,
                               size_t second_length, uint8_t *same, p21_report *report, p21_place *place);

/* Hands out a session over a schema. It has no report: P21_FAILED where there was no memory. */
uint8_t p21_session_new(const p21_schema *schema, p21_session *session);

/*
 * Feeds a session the next piece of a file, of any length. P21_REFUSED: nothing that is accepted begins so; the session then
 * answers the same again. The piece isn't kept.
 */
uint8_t p21_session_feed(p21_session *session, const uint8_t *piece, size_t length, p21_report *report);

/*
 * Ends a session. P21_DONE: the handle holds the accepted file, and the report has its counts. P21_REFUSED or P21_FAILED: the
 * handle is empty.
 */
uint8_t p21_session_finish(p21_session *session, p21_report *report);

/* Lets go of a session, or of the accepted file that it ended in. */
void p21_session_free(p21_session *session);

/* ---- Where a refusal stands. These calls do what the ones of the same name do, and write the place too. */

uint8_t p21_check_located(const p21_schema *schema, const uint8_t *file, size_t length, p21_report *report, p21_place *place);
uint8_t p21_canonical_located(const p21_schema *schema, const uint8_t *file, size_t length, p21_text *text, p21_report *report,
                              p21_place *place);
/* The place is one of the file that `subject` names. */
uint8_t p21_same_located(const p21_schema *schema, const uint8_t *first, size_t first_length, const uint8_t *second,
                         size_t second_length, uint8_t *same, p21_report *report, p21_place *place);
uint8_t p21_session_finish_located(p21_session *session, p21_report *report, p21_place *place);

/* Writes where the refusal stands that p21_session_feed answered last; nothing is known of a session that refused nothing. */
uint8_t p21_session_place(const p21_session *session, p21_place *place);

/*
 * Hands out the name of an attribute behind that of the entity that declares it, as `POINT.X`: of the numbers that a place has
 * under this schema. P21_REFUSED: the schema has no such attribute. It has no report.
 */
uint8_t p21_place_name(const p21_schema *schema, uint32_t entity, uint32_t attribute, p21_text *text);

/* ---- All refusals of a file. */

/*
 * Reads a file to its end, and hands out a list of what is refused of it, `most` refusals at most and one at least. P21_DONE: the
 * list is handed out; the report has the counts where the file is accepted, and then the list has nothing. An instance that is
 * refused is left out, and the reading goes on: of its references nothing is said, nor of references to its name. A statement of a
 * data section that is broken, so that its bytes, tokens or grammar are refused, is passed over up to where the next one begins, and
 * the reading goes on there; of no reference it is said then that its target isn't there. Every other refusal ends the reading, and
 * is the last one: of the header, of where a section begins or ends, of a limit, of a file that ends early, and of a broken statement
 * behind which none begins. The file isn't copied.
 */
uint8_t p21_survey(const p21_schema *schema, const uint8_t *file, size_t length, uint64_t most, p21_list *list, p21_report *report);

/* Writes how many refusals a list has, and how much of the file they are about. */
uint8_t p21_list_count(const p21_list *list, size_t *count, uint8_t *extent);

/*
 * Writes how many bytes of the file stand in front of the statement whose refusal ended the reading: those that the list is about.
 * P21_REFUSED: none ended it, and nothing is written.
 */
uint8_t p21_list_read(const p21_list *list, uint64_t *bytes);

/*
 * Writes the refusal of this number in a list, counted from 0, and where it stands. They are in the order of the file, those of
 * references behind the others. P21_REFUSED: the list has no such number, and nothing is written.
 */
uint8_t p21_list_refusal(const p21_list *list, size_t number, p21_report *report, p21_place *place);

/*
 * Writes how many bytes of the file stand in front of the statement of the refusal of this number. P21_REFUSED: it is one of a
 * reference, or the list has no such number, and nothing is written.
 */
uint8_t p21_list_begins(const p21_list *list, size_t number, uint64_t *begins);

/* Lets go of a list. */
void p21_list_free(p21_list *list);

/* ---- A file by itself, without a schema. */

/*
 * Whether a file is well formed: bytes, tokens and grammar, the header, the name of the schema, names given once, and references
 * to names that instances have. P21_DONE: the report has how many instances there are, and three texts are handed out, each in
 * UTF-8: the name of the schema in upper case; the header in words, a line for each text, as `author: NAME`; and a line for each
 * keyword with how many records have it, as `POINT 12`. P21_REFUSED: it isn't well formed. The file isn't copied.
 */
uint8_t p21_syntax(const uint8_t *file, size_t length, p21_text *schema, p21_text *header, p21_text *keywords, p21_report *report,
                   p21_place *place);

/* ---- Accepted files and texts. */

/*
 * Hands out the canonical statement of an instance of an accepted file, without a line feed. P21_REFUSED: there is no
 * instance of this name. It has no report.
 */
uint8_t p21_accepted_line(const p21_session *session, uint64_t name, p21_text *text);

/* Hands out the canonical file of an accepted one. It has no report. */
uint8_t p21_accepted_write(const p21_session *session, p21_text *text);

/*
 * Reads on in the canonical file of an accepted one: fills a buffer as far as the file goes, moves the cursor behind what it put
 * there, and writes how many bytes these are. So what was read with a cursor is always the beginning of the canonical file; each
 * call adds as many bytes as the buffer has room for; and a count below `room`, 0 where nothing was left, says that all of it
 * was read. The rest of the buffer stays as it was, and none of it is read, so it needs no bytes in it before. Several cursors read
 * one file side by side, and one that begins as P21_START again reads it from the beginning. The call takes no memory: it is never
 * P21_FAILED, and has no report.
 */
uint8_t p21_accepted_read(const p21_session *session, p21_cursor *cursor, uint8_t *buffer, size_t room, size_t *count);

/* Writes where the bytes of a text lie, and how many they are. They stay there until the text is let go; they are read only. */
uint8_t p21_text_bytes(const p21_text *text, const uint8_t **bytes, size_t *length);

/* Lets go of a text. */
void p21_text_free(p21_text *text);

/*
 * The model in hand: the instances of an accepted file with their values, what a schema declares, and who refers to whom. Nothing
 * is made for an instance or a value: what is handed out are spans of the canonical file where the library has it, each valid until the
 * handle that it came from is freed, and read only. None of these calls takes memory, but for those that fill a handle. A call that
 * fills an array writes as many as there is room for, and reads none of it.
 */

/* Bytes where they lie. A span of a file lives as long as the accepted file, one of a schema as long as some handle of the schema. */
typedef struct p21_span {
    const uint8_t *bytes;
    size_t length;
} p21_span;

/* An instance, by its name and its statement in the canonical file, which has no line feed. */
typedef struct p21_line {
    uint64_t name;
    p21_span line;
} p21_line;

/* An attribute, by the number of the entity that declares it and its number there from 0, with the value of an instance. */
typedef struct p21_attribute {
    uint32_t entity;
    uint32_t index;
    p21_span value;
} p21_attribute;

/* An instance that refers to another one, and the attribute whose value has the name of that. */
typedef struct p21_use {
    uint64_t user;
    uint32_t entity;
    uint32_t index;
} p21_use;

/*
 * A number by its digits in ASCII: those of `whole` and of `fraction` as one number, times ten to the exponent less the length of
 * `fraction`. A whole number has no fraction, and the exponent 0. They are spans of the value.
 */
typedef struct p21_digits {
    uint8_t negative; /* 1 or 0 */
    int32_t exponent;
    p21_span whole;
    p21_span fraction;
} p21_digits;

/* Who refers to whom in an accepted file. */
typedef struct p21_users {
    void *inside;
} p21_users;

/* What a value is. */
enum {
    P21_VALUE_MISSING = 0,   /* $ */
    P21_VALUE_DERIVED = 1,   /* * */
    P21_VALUE_WHOLE = 2,     /* 12 */
    P21_VALUE_REAL = 3,      /* 1.5, and the value of a NUMBER */
    P21_VALUE_TEXT = 4,      /* 'a' */
    P21_VALUE_ITEM = 5,      /* .RED., and values of BOOLEAN and LOGICAL */
    P21_VALUE_BITS = 6,      /* "0A" */
    P21_VALUE_REFERENCE = 7, /* #12 */
    P21_VALUE_AGGREGATE = 8, /* (1,2) */
    P21_VALUE_TYPED = 9      /* LABEL('a') */
};

/* What a type is where it is used: `kind` of a p21_type. */
enum {
    P21_TYPE_INTEGER = 0,
    P21_TYPE_REAL = 1,
    P21_TYPE_NUMBER = 2,
    P21_TYPE_BOOLEAN = 3,
    P21_TYPE_LOGICAL = 4,
    P21_TYPE_STRING = 5,
    P21_TYPE_BINARY = 6,
    P21_TYPE_ENTITY = 7,  /* `number` is that of the entity */
    P21_TYPE_DEFINED = 8, /* `number` is that of the declared type */
    P21_TYPE_ARRAY = 9,
    P21_TYPE_LIST = 10,
    P21_TYPE_SET = 11,
    P21_TYPE_BAG = 12,
    P21_TYPE_DERIVED = 13 /* a derived attribute, which is written as `*` */
};

/* A type where it is used. What doesn't apply is 0. */
typedef struct p21_type {
    uint8_t kind;
    uint8_t optional; /* 1 where a value may be left out here */
    uint8_t unique;   /* 1 where elements may not be equal */
    uint8_t fixed;    /* 1 where a text or a binary has exactly so many characters or bits */
    uint8_t bounded;  /* 1 where there is an upper bound or a width */
    uint32_t number;  /* of the entity or the declared type */
    uint32_t low;     /* the lower bound */
    uint32_t high;    /* the upper bound, or the width */
} p21_type;

/* What a declared type is: `kind` of a p21_declared. */
enum {
    P21_DECLARED_RENAMED = 0, /* another type under its name */
    P21_DECLARED_ITEMS = 1,   /* an enumeration */
    P21_DECLARED_SELECT = 2   /* a select */
};

/* What a declared type is, and how many items or members it has. */
typedef struct p21_declared {
    uint8_t kind;
    size_t count;
} p21_declared;

/* A member of a select: P21_TYPE_ENTITY or P21_TYPE_DEFINED, with its number. */
typedef struct p21_member {
    uint8_t kind;
    uint32_t number;
} p21_member;

/* Finds the instance of this name in an accepted file, without a walk. P21_REFUSED: there is none, and nothing is written. */
uint8_t p21_instance(const p21_session *accepted, uint64_t name, p21_line *instance);

/*
 * Finds the first instance whose name is this one or above it. P21_REFUSED: there is none. To walk over all in the order of
 * names begin with 0, and go on with the name that was found and 1 more, unless it is UINT64_MAX.
 */
uint8_t p21_instance_from(const p21_session *accepted, uint64_t least, p21_line *instance);

/* Finds the line with which the data section begins that an instance stands in: `DATA;` or one with its name and its schema. */
uint8_t p21_instance_section(const p21_session *accepted, uint64_t name, p21_span *line);

/*
 * Tells the entities of an instance's set by their numbers: of each keyword in its record, and of a record with one keyword all above
 * it too. `count` is how many were written: `room` where there may be more, which no schema's number of entities is below.
 */
uint8_t p21_instance_entities(const p21_session *accepted, uint64_t name, uint32_t *entities, size_t room, size_t *count);

/*
 * Tells the attributes of an instance with their values, in the order of its record. `count` is how many were written: `room` where
 * there may be more.
 */
uint8_t p21_instance_values(const p21_session *accepted, uint64_t name, p21_attribute *values, size_t room, size_t *count);

/* Finds the value of an instance at an attribute. P21_REFUSED: there is no such instance, or it hasn't this attribute. */
uint8_t p21_instance_value(const p21_session *accepted, uint64_t name, uint32_t entity, uint32_t index, p21_span *value);

/* What a value is, which is a span of a canonical file: a P21_VALUE_ number. What is no such span gets some answer. */
uint8_t p21_value_kind(const uint8_t *value, size_t length);

/* Writes the name of the instance that a reference names. P21_REFUSED: the value is none. */
uint8_t p21_value_reference(const uint8_t *value, size_t length, uint64_t *name);

/* Writes where the elements of an aggregate begin, for p21_next_element. */
void p21_value_elements(const uint8_t *value, size_t length, p21_span *rest);

/*
 * Writes the first of the elements that are left, and what is left behind it. P21_REFUSED: none is left. The elements of an aggregate
 * are walked by
 *     p21_value_elements(value.bytes, value.length, &rest);
 *     while (p21_next_element(rest.bytes, rest.length, &element, &rest) == P21_DONE) ..
 */
uint8_t p21_next_element(const uint8_t *left, size_t length, p21_span *element, p21_span *rest);

/* Writes the keyword and the value of a value that stands with the keyword of its type. P21_REFUSED: the value is none such. */
uint8_t p21_value_typed(const uint8_t *value, size_t length, p21_span *keyword, p21_span *inside);

/*
 * Tells the characters of a text by their code points. `count` is how many were written: `room` where there may be more. A text has at
 * most as many as its span has bytes, less two.
 */
void p21_value_characters(const uint8_t *value, size_t length, uint32_t *characters, size_t room, size_t *count);

/* Writes the exact digits of a whole number or a real. P21_REFUSED: the value is neither. */
uint8_t p21_value_digits(const uint8_t *value, size_t length, p21_digits *digits);

/*
 * Writes the double that is nearest to a whole number or a real: a tie goes to the even one, and past the largest it is infinite.
 * P21_REFUSED: the value is neither.
 */
uint8_t p21_value_double(const uint8_t *value, size_t length, double *nearest);

/*
 * Hands out who refers to whom in an accepted file: a walk over all its values, once. A reference takes 8 bytes, an instance that
 * is used 16 and one that uses others 8. It needs the file no more. P21_FAILED: there was no memory. P21_REFUSED: there are 2^32
 * references or more.
 */
uint8_t p21_users_new(const p21_session *accepted, p21_users *users);

/* Lets go of who refers to whom. */
void p21_users_free(p21_users *users);

/*
 * Tells the instances that refer to the one of this name, by rising names, each as often as it has an attribute that does. `count` is
 * how many there are, of which as many were written as there is room for.
 */
uint8_t p21_users_of(const p21_users *users, uint64_t name, p21_use *uses, size_t room, size_t *count);

/* Hands out another handle of the schema under which a file was accepted, which the file keeps as long as it needs it. It has no report. */
uint8_t p21_accepted_schema(const p21_session *accepted, p21_schema *schema);

/* Writes the name of a schema, and how many entities and types it declares: their numbers begin with 0. Names are in upper case. */
uint8_t p21_schema_declares(const p21_schema *schema, p21_span *name, uint32_t *entities, uint32_t *types);

/* Finds the entity of this name, which is in upper case. P21_REFUSED: there is none. */
uint8_t p21_entity_named(const p21_schema *schema, const uint8_t *name, size_t length, uint32_t *entity);

/*
 * Writes the name of an entity, whether it is abstract, and how many attributes it declares itself. P21_REFUSED: there is none of this
 * number.
 */
uint8_t p21_entity_declares(const p21_schema *schema, uint32_t entity, p21_span *name, uint8_t *is_abstract, uint32_t *attributes);

/* Tells the direct supertypes of an entity, as listed. `count` is how many there are. */
uint8_t p21_entity_supertypes(const p21_schema *schema, uint32_t entity, uint32_t *supertypes, size_t room, size_t *count);

/* Tells an entity and all above it, in the order in which their attributes stand in a record. `count` is how many there are. */
uint8_t p21_entity_order(const p21_schema *schema, uint32_t entity, uint32_t *entities, size_t room, size_t *count);

/* Whether an entity is another one, or a direct or indirect subtype of it: 1 or 0. */
uint8_t p21_entity_is(const p21_schema *schema, uint32_t entity, uint32_t other, uint8_t *is);

/* Writes the name of an attribute. P21_REFUSED: there is none of this number. */
uint8_t p21_attribute_name(const p21_schema *schema, uint32_t entity, uint32_t index, p21_span *name);

/*
 * Writes what may stand at an attribute of an instance of the entity `of`, redeclarations included: with a depth of 0 its type, with 1 that
 * of its elements, and so on. P21_REFUSED: there is no such attribute, it isn't so deep, or redeclarations leave it open.
 */
uint8_t p21_attribute_type(const p21_schema *schema, uint32_t of, uint32_t entity, uint32_t index, uint32_t depth, p21_type *found);

/* Finds the type of this name, which is in upper case. P21_REFUSED: there is none. */
uint8_t p21_type_named(const p21_schema *schema, const uint8_t *name, size_t length, uint32_t *number);

/* Writes the name of a type, and what it is. P21_REFUSED: there is none of this number. */
uint8_t p21_type_declares(const p21_schema *schema, uint32_t number, p21_span *name, p21_declared *declared);

/* Writes the type that a type renames, so many aggregates deep. P21_REFUSED: it renames none. */
uint8_t p21_type_renames(const p21_schema *schema, uint32_t number, uint32_t depth, p21_type *found);

/* Writes an item of an enumeration, in upper case. P21_REFUSED: there is none of this number, counted from 0. */
uint8_t p21_type_item(const p21_schema *schema, uint32_t number, size_t at, p21_span *item);

/* Writes a member of a select. P21_REFUSED: there is none of this number, counted from 0. */
uint8_t p21_type_member(const p21_schema *schema, uint32_t number, size_t at, p21_member *member);

/* Whether a select offers an entity, itself or by a select in it: 1 or 0. */
uint8_t p21_type_offers_entity(const p21_schema *schema, uint32_t number, uint32_t entity, uint8_t *offers);

/* Whether a select offers a type other than a select, itself or by a select in it: 1 or 0. */
uint8_t p21_type_offers_type(const p21_schema *schema, uint32_t number, uint32_t other, uint8_t *offers);

#ifdef __cplusplus
}
#endif

#include "p21_lines.h"
#include "p21_refusals.h"

#endif
