/*
 * The refusals in words: the name and the sentence of each number of a report, as `p21 faults` prints them. p21.h includes it.
 *
 * Made from docs/FAULTS.md by making/make-refusals: edit the document, and not this file.
 */
#ifndef P21_REFUSALS_H
#define P21_REFUSALS_H

#include <stddef.h>
#include <stdint.h>

/* The name of a refusal of a file by its number, or NULL where no call answers the number. */
static inline const char *p21_refusal_name(uint8_t number) {
    switch (number) {
    case 1:
        return "BadByte";
    case 2:
        return "OpenString";
    case 3:
        return "OpenComment";
    case 4:
        return "BadDirective";
    case 5:
        return "BadCodePoint";
    case 6:
        return "NotUtf8";
    case 7:
        return "BadNumber";
    case 8:
        return "NumberRange";
    case 9:
        return "BadBinary";
    case 10:
        return "NameRange";
    case 11:
        return "BadName";
    case 20:
        return "Unexpected";
    case 21:
        return "TooDeep";
    case 22:
        return "RecordTooLong";
    case 23:
        return "FileTooLong";
    case 24:
        return "EndsEarly";
    case 25:
        return "AfterEnd";
    case 26:
        return "LeftOut";
    case 27:
        return "CanonicalTooLong";
    case 30:
        return "HeaderShape";
    case 31:
        return "SchemaName";
    case 32:
        return "SectionShape";
    case 33:
        return "SectionTwice";
    case 40:
        return "DuplicateName";
    case 41:
        return "UnknownEntity";
    case 42:
        return "Abstract";
    case 43:
        return "PartMissing";
    case 44:
        return "PartTwice";
    case 45:
        return "Count";
    case 46:
        return "Missing";
    case 47:
        return "StarNotDerived";
    case 48:
        return "DerivedNotStar";
    case 49:
        return "WrongKind";
    case 50:
        return "Width";
    case 51:
        return "Bounds";
    case 52:
        return "NotDistinct";
    case 53:
        return "UnknownItem";
    case 54:
        return "SelectType";
    case 55:
        return "TwoRedeclarations";
    case 56:
        return "Dangling";
    case 57:
        return "WrongTarget";
    case 58:
        return "OneOf";
    case 59:
        return "Alike";
    case 90:
        return "NoMemory";
    default:
        return NULL;
    }
}

/* A sentence on a refusal of a file by its number, or NULL. */
static inline const char *p21_refusal_sentence(uint8_t number) {
    switch (number) {
    case 1:
        return "No word, number or sign begins or goes on with this byte.";
    case 2:
        return "The file ends inside a string.";
    case 3:
        return "The file ends inside a remark.";
    case 4:
        return "In a string, a backslash begins no directive that is read.";
    case 5:
        return "The digits of a directive name no character.";
    case 6:
        return "A byte in a string is part of no UTF-8 character.";
    case 7:
        return "A sign or an exponent has no digits behind it.";
    case 8:
        return "The exponent of the number is outside -9999 to 9999.";
    case 9:
        return "A binary has other digits, or bits that it must not have.";
    case 10:
        return "The name of an instance is over 18446744073709551615.";
    case 11:
        return "No digit stands behind #.";
    case 20:
        return "No statement goes on with this token.";
    case 21:
        return "Lists and typed parameters stand more than 64 deep.";
    case 22:
        return "A statement has too many bytes.";
    case 23:
        return "The file, or the text of param, has too many bytes.";
    case 24:
        return "The file ends before END-ISO-10303-21;.";
    case 25:
        return "Something follows END-ISO-10303-21;.";
    case 26:
        return "A form that is not read; its name is in parentheses.";
    case 27:
        return "A canonical statement or file has too many bytes.";
    case 30:
        return "A record of the header has another form than it must have.";
    case 31:
        return "The file is of another schema than the one given.";
    case 32:
        return "A data section has no name, or no list of one schema.";
    case 33:
        return "Two data sections have one name.";
    case 40:
        return "Two instances have one name.";
    case 41:
        return "The schema has no entity of this keyword.";
    case 42:
        return "The entity is abstract, and no subtype of it is there.";
    case 43:
        return "The instance lacks the part of a supertype.";
    case 44:
        return "An entity has two parts.";
    case 45:
        return "The record has another number of values than the entity.";
    case 46:
        return "$ stands for a value that is not optional.";
    case 47:
        return "* stands for a value that is not derived.";
    case 48:
        return "Something else than * stands for a derived value.";
    case 49:
        return "The value is of another kind than its type.";
    case 50:
        return "A string or binary has another width than its type allows.";
    case 51:
        return "A list has fewer or more elements than its type allows.";
    case 52:
        return "Two elements that have to differ mean the same.";
    case 53:
        return "The enumeration has no such item.";
    case 54:
        return "The value has no type that its SELECT offers.";
    case 55:
        return "Two entities of the instance declare one attribute anew.";
    case 56:
        return "A reference names an instance that is not in the file.";
    case 57:
        return "A reference names an instance of the wrong entity.";
    case 58:
        return "The instance is of two entities of which it may be one.";
    case 59:
        return "For --names alone: the model does not tell it from another one.";
    case 90:
        return "out of memory: memory ran out.";
    default:
        return NULL;
    }
}

/* The name of a refusal of a schema by its number, or NULL where no call answers the number. */
static inline const char *p21_schema_refusal_name(uint8_t number) {
    switch (number) {
    case 1:
        return "Token";
    case 2:
        return "Syntax";
    case 3:
        return "Duplicate";
    case 4:
        return "UnknownName";
    case 5:
        return "Circular";
    case 6:
        return "LeftOut";
    case 7:
        return "Bounds";
    case 8:
        return "RedeclaredPlace";
    case 9:
        return "TooLarge";
    default:
        return NULL;
    }
}

/* A sentence on a refusal of a schema by its number, or NULL. */
static inline const char *p21_schema_refusal_sentence(uint8_t number) {
    switch (number) {
    case 1:
        return "A string or remark has no end, or a byte begins no word.";
    case 2:
        return "No declaration goes on so.";
    case 3:
        return "A name is declared twice.";
    case 4:
        return "A name is declared nowhere.";
    case 5:
        return "An entity, a type or a SELECT stands in itself.";
    case 6:
        return "A form of EXPRESS that is not read.";
    case 7:
        return "Bounds or a width that cannot be.";
    case 8:
        return "What is declared anew is no attribute of a supertype.";
    case 9:
        return "The schema is over a limit.";
    default:
        return NULL;
    }
}

#endif
