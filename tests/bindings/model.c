/*
 * Prints all that the library tells of a schema and of a file that is accepted under it, for tests/bindings/model.py to compare: the
 * entities and types, each instance with its section, its set and its values, and who refers to whom.
 *
 *   model SCHEMA FILE
 */
#include <inttypes.h>
#include <stdbool.h>
#include <stdio.h>
#include <stdlib.h>
#include <string.h>

#include "p21.h"

static void must(uint8_t status, const char *what) {
    if (status != P21_DONE) {
        fprintf(stderr, "%s: %d\n", what, status);
        exit(1);
    }
}

static uint8_t *read_file(const char *path, size_t *length) {
    FILE *file = fopen(path, "rb");
    if (file == NULL) {
        perror(path);
        exit(2);
    }
    fseek(file, 0, SEEK_END);
    *length = (size_t)ftell(file);
    rewind(file);
    uint8_t *bytes = malloc(*length + 1);
    if (bytes == NULL || fread(bytes, 1, *length, file) != *length) exit(2);
    fclose(file);
    return bytes;
}

static void print(p21_span span) {
    fwrite(span.bytes, 1, span.length, stdout);
}

static void print_entity(const p21_schema *schema, uint32_t entity) {
    p21_span name;
    uint8_t is_abstract;
    uint32_t attributes;
    must(p21_entity_declares(schema, entity, &name, &is_abstract, &attributes), "entity");
    print(name);
}

static void print_attribute(const p21_schema *schema, uint32_t entity, uint32_t index) {
    p21_span name;
    print_entity(schema, entity);
    must(p21_attribute_name(schema, entity, index, &name), "attribute");
    putchar('.');
    print(name);
}

/* A type where it is used, as deep as it goes. */
static void print_type(const p21_schema *schema, bool renamed, uint32_t of, uint32_t entity, uint32_t index) {
    static const char *const names[] = {"INTEGER", "REAL", "NUMBER", "BOOLEAN", "LOGICAL", "STRING", "BINARY", "", "", "ARRAY", "LIST", "SET", "BAG", "DERIVED"};
    for (uint32_t depth = 0;; depth++) {
        p21_type type;
        p21_span name;
        const uint8_t status = renamed ? p21_type_renames(schema, of, depth, &type) : p21_attribute_type(schema, of, entity, index, depth, &type);
        if (status != P21_DONE) {
            if (depth == 0) printf(" open");
            break;
        }
        printf(" %s", type.optional ? "OPTIONAL " : "");
        if (type.kind == P21_TYPE_ENTITY) print_entity(schema, type.number);
        else if (type.kind == P21_TYPE_DEFINED) {
            p21_declared declared;
            must(p21_type_declares(schema, type.number, &name, &declared), "type");
            print(name);
        } else printf("%s", names[type.kind]);
        if (type.kind >= P21_TYPE_ARRAY && type.kind <= P21_TYPE_BAG) {
            printf("[%" PRIu32 ":", type.low);
            if (type.bounded) printf("%" PRIu32 "]", type.high);
            else printf("?]");
            if (type.unique && type.kind != P21_TYPE_SET) printf(" UNIQUE");
        } else if (type.bounded) printf("(%" PRIu32 ")%s", type.high, type.fixed ? " FIXED" : "");
    }
    putchar('\n');
}

static void print_schema(const p21_schema *schema) {
    p21_span name;
    uint32_t entities, types;
    must(p21_schema_declares(schema, &name, &entities, &types), "schema");
    printf("schema ");
    print(name);
    printf(" %" PRIu32 " %" PRIu32 "\n", entities, types);
    uint32_t *room = malloc((entities + 1) * sizeof *room);
    for (uint32_t entity = 0; entity < entities; entity++) {
        uint8_t is_abstract;
        uint32_t attributes, found;
        size_t count;
        must(p21_entity_declares(schema, entity, &name, &is_abstract, &attributes), "entity");
        must(p21_entity_named(schema, name.bytes, name.length, &found), "entity of its name");
        if (found != entity) printf("another entity has this name: ");
        printf("entity ");
        print(name);
        printf("%s of", is_abstract ? " abstract" : "");
        must(p21_entity_supertypes(schema, entity, room, entities, &count), "supertypes");
        for (size_t k = 0; k < count; k++) {
            putchar(' ');
            print_entity(schema, room[k]);
        }
        printf(" order");
        must(p21_entity_order(schema, entity, room, entities, &count), "order");
        for (size_t k = 0; k < count; k++) {
            uint8_t is = 9;
            putchar(' ');
            print_entity(schema, room[k]);
            must(p21_entity_is(schema, entity, room[k], &is), "is");
            if (is != 1) printf("(not above)");
        }
        putchar('\n');
        for (size_t k = 0; k < count; k++) {
            uint32_t own;
            must(p21_entity_declares(schema, room[k], &name, &is_abstract, &own), "owner");
            for (uint32_t index = 0; index < own; index++) {
                printf("  ");
                print_attribute(schema, room[k], index);
                print_type(schema, false, entity, room[k], index);
            }
        }
    }
    for (uint32_t type = 0; type < types; type++) {
        p21_declared declared;
        uint32_t found;
        must(p21_type_declares(schema, type, &name, &declared), "type");
        must(p21_type_named(schema, name.bytes, name.length, &found), "type of its name");
        if (found != type) printf("another type has this name: ");
        printf("type ");
        print(name);
        if (declared.kind == P21_DECLARED_RENAMED) {
            print_type(schema, true, type, 0, 0);
            continue;
        }
        for (size_t at = 0; at < declared.count; at++) {
            p21_member member;
            putchar(' ');
            if (declared.kind == P21_DECLARED_ITEMS) {
                must(p21_type_item(schema, type, at, &name), "item");
                printf(".");
                print(name);
                printf(".");
            } else {
                must(p21_type_member(schema, type, at, &member), "member");
                if (member.kind == P21_TYPE_ENTITY) print_entity(schema, member.number);
                else {
                    p21_declared other;
                    must(p21_type_declares(schema, member.number, &name, &other), "member's type");
                    print(name);
                }
            }
        }
        if (declared.kind == P21_DECLARED_SELECT) {
            printf(" offers");
            for (uint32_t entity = 0; entity < entities; entity++) {
                uint8_t offers = 9;
                must(p21_type_offers_entity(schema, type, entity, &offers), "offers an entity");
                if (offers == 1) {
                    putchar(' ');
                    print_entity(schema, entity);
                }
            }
            for (uint32_t other = 0; other < types; other++) {
                uint8_t offers = 9;
                must(p21_type_offers_type(schema, type, other, &offers), "offers a type");
                if (offers == 1) {
                    p21_declared of;
                    must(p21_type_declares(schema, other, &name, &of), "offered type");
                    putchar(' ');
                    print(name);
                }
            }
        }
        putchar('\n');
    }
    free(room);
}

static void print_value(p21_span value) {
    switch (p21_value_kind(value.bytes, value.length)) {
    case P21_VALUE_MISSING: printf("missing"); break;
    case P21_VALUE_DERIVED: printf("derived"); break;
    case P21_VALUE_WHOLE:
    case P21_VALUE_REAL: {
        p21_digits digits;
        double nearest;
        uint64_t bits;
        must(p21_value_digits(value.bytes, value.length, &digits), "digits");
        must(p21_value_double(value.bytes, value.length, &nearest), "double");
        memcpy(&bits, &nearest, sizeof bits);
        printf("%s %s", p21_value_kind(value.bytes, value.length) == P21_VALUE_REAL ? "real" : "whole", digits.negative ? "-" : "+");
        print(digits.whole);
        putchar('.');
        print(digits.fraction);
        printf("e%" PRId32 " %016" PRIx64, digits.exponent, bits);
        break;
    }
    case P21_VALUE_TEXT: {
        size_t count;
        uint32_t *characters = malloc(value.length * sizeof *characters);
        p21_value_characters(value.bytes, value.length, characters, value.length, &count);
        printf("text");
        for (size_t k = 0; k < count; k++) printf(" %" PRIu32, characters[k]);
        free(characters);
        break;
    }
    case P21_VALUE_ITEM:
        printf("item ");
        print(value);
        break;
    case P21_VALUE_BITS:
        printf("bits ");
        print(value);
        break;
    case P21_VALUE_REFERENCE: {
        uint64_t name;
        must(p21_value_reference(value.bytes, value.length, &name), "reference");
        printf("reference %" PRIu64, name);
        break;
    }
    case P21_VALUE_AGGREGATE: {
        p21_span rest, element;
        printf("aggregate {");
        p21_value_elements(value.bytes, value.length, &rest);
        while (p21_next_element(rest.bytes, rest.length, &element, &rest) == P21_DONE) {
            print_value(element);
            putchar(';');
        }
        putchar('}');
        break;
    }
    case P21_VALUE_TYPED: {
        p21_span keyword, inside;
        must(p21_value_typed(value.bytes, value.length, &keyword, &inside), "typed");
        printf("typed ");
        print(keyword);
        printf(" <");
        print_value(inside);
        putchar('>');
        break;
    }
    default: printf("no kind");
    }
}

static void print_instance(const p21_session *accepted, const p21_schema *schema, const p21_users *users, const p21_line *instance) {
    uint32_t entities[64];
    p21_attribute values[256];
    p21_use uses[1024];
    p21_span section;
    p21_line again;
    size_t count;
    print(instance->line);
    must(p21_instance_section(accepted, instance->name, &section), "section");
    printf("\n  section ");
    print(section);
    printf("\n  set");
    must(p21_instance_entities(accepted, instance->name, entities, 64, &count), "set");
    for (size_t k = 0; k < count; k++) {
        putchar(' ');
        print_entity(schema, entities[k]);
    }
    putchar('\n');
    must(p21_instance_values(accepted, instance->name, values, 256, &count), "values");
    for (size_t k = 0; k < count; k++) {
        p21_span value;
        printf("  ");
        print_attribute(schema, values[k].entity, values[k].index);
        putchar(' ');
        print_value(values[k].value);
        putchar('\n');
        must(p21_instance_value(accepted, instance->name, values[k].entity, values[k].index, &value), "value");
        if (value.bytes != values[k].value.bytes || value.length != values[k].value.length) printf("  another value by its attribute\n");
    }
    must(p21_users_of(users, instance->name, uses, 1024, &count), "users");
    for (size_t k = 0; k < count; k++) {
        printf("  used by %" PRIu64 " ", uses[k].user);
        print_attribute(schema, uses[k].entity, uses[k].index);
        putchar('\n');
    }
    must(p21_instance(accepted, instance->name, &again), "instance");
    if (again.name != instance->name || again.line.bytes != instance->line.bytes || again.line.length != instance->line.length) {
        printf("  another instance by its name\n");
    }
}

int main(int count, char **words) {
    if (count != 3) return 2;
    size_t schema_length, file_length;
    uint8_t *schema_text = read_file(words[1], &schema_length);
    uint8_t *file = read_file(words[2], &file_length);
    p21_schema given = P21_EMPTY, schema = P21_EMPTY;
    p21_session session = P21_EMPTY;
    p21_users users = P21_EMPTY;
    p21_report report;
    must(p21_schema_new(schema_text, schema_length, &given, &report), "schema");
    must(p21_session_new(&given, &session), "session");
    p21_schema_free(&given);
    must(p21_session_feed(&session, file, file_length, &report), "file");
    must(p21_session_finish(&session, &report), "end of the file");
    free(file);
    free(schema_text);
    must(p21_accepted_schema(&session, &schema), "the file's schema");
    print_schema(&schema);
    must(p21_users_new(&session, &users), "users");
    uint64_t least = 0;
    p21_line instance;
    while (p21_instance_from(&session, least, &instance) == P21_DONE) {
        print_instance(&session, &schema, &users, &instance);
        if (instance.name == UINT64_MAX) break;
        least = instance.name + 1;
    }
    p21_users_free(&users);
    p21_session_free(&session);
    p21_schema_free(&schema);
    return 0;
}
