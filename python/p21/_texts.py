"""What docs/FAULTS.md says of each refusal: making/make-refusals makes this file of it. Edit the document, and not this file."""

from typing import Dict, NamedTuple


class Words(NamedTuple):
    """The name of a refusal, a sentence, and what it means and what to do."""

    name: str
    sentence: str
    advice: str


FILES: Dict[int, Words] = {
    1: Words(
        "BadByte",
        "No word, number or sign begins or goes on with this byte.",
        "No word, number or sign of a STEP file begins or goes on with this byte. It is mostly one of these: keywords in lower case; a byte order mark in front of `ISO-10303-21;`, which editors don't show (`examples/refused/BadByte.step`); a real without a digit in front of its point (`.5`); a print control directive (`\\N\\`) between tokens; something that is no STEP file at all. At statement 1 it is mostly a file that is packed by gzip, or in UTF-16.\n\nWrite keywords in upper case and `0.5` for `.5`. Save the file as UTF-8 *without* byte order mark.",
    ),
    2: Words(
        "OpenString",
        "The file ends inside a string.",
        "The file ends inside a string. An apostrophe is missing, or one stands alone inside a string. Where another string follows, the open one ends at its first apostrophe, and what then stands outside is refused: as 20, or as 1 where it is in lower case.\n\nClose the string; write an apostrophe inside a string twice: `'O''Neill'`.",
    ),
    3: Words(
        "OpenComment",
        "The file ends inside a remark.",
        "A remark has no `*/`, so that the rest of the file stands in it. Close it. Remarks aren't nested: the first `*/` ends the remark.",
    ),
    4: Words(
        "BadDirective",
        "In a string, a backslash begins no directive that is read.",
        "In a string a backslash begins a directive, as `\\X2\\00FC\\X0\\` for ü, and this is none. Mostly it is a Windows path that was written as it stands (`examples/refused/BadDirective.step`). Directives are `\\S\\` with a character, `\\PA\\`, `\\X\\` with two digits, `\\X2\\` with groups of four and `\\X4\\` with groups of eight, both up to `\\X0\\`; the digits of all are 0 to 9 and A to F, in upper case. Other pages than A (`\\PB\\`) and the print control directives (`\\N\\`, `\\F\\`) aren't read.\n\nWrite each backslash that is meant as a character twice: `'C:\\\\parts'`.",
    ),
    5: Words(
        "BadCodePoint",
        "The digits of a directive name no character.",
        "The digits name no character: half of a surrogate pair without the other, or a number over 10FFFF. Mostly the producer cut a text after so many units, in the middle of a character.\n\nWrite the whole pair, or the character by `\\X4\\`: `\\X4\\0001F600\\X0\\`.",
    ),
    6: Words(
        "NotUtf8",
        "A byte in a string is part of no UTF-8 character.",
        "`examples/refused/NotUtf8.step`: `refused 6 NotUtf8 at statement 8`\n\nIn a string stands a byte from 80 on that is part of no UTF-8 character. The producer wrote names as its system keeps them, in ISO 8859-1 or a Windows page, and the file doesn't say which.\n\nConvert the file (`iconv -f ISO-8859-1 -t UTF-8`), or write such characters as directives: `Kr\\X2\\00FC\\X0\\ger`.",
    ),
    7: Words(
        "BadNumber",
        "A sign or an exponent has no digits behind it.",
        "A sign without digits behind it, or an exponent without digits: `1.E`, `1.E+`. Mostly the producer computed something that is no number and printed it.\n\nThere is no spelling for infinity or for what isn't a number. Without a sign the same has another number: `NAN` is 20, and `1.#INF` is 26 LeftOut(ConstantName). Mend the value.",
    ),
    8: Words(
        "NumberRange",
        "The exponent of the number is outside -9999 to 9999.",
        "The number, written with one digit in front of its point, has an exponent outside -9999 to 9999; or the exponent has more than nine digits. `0.1E10000` is read, since it is `1.E9999`. With `in #1`: an INTEGER of more than 10,000 digits where the schema has a NUMBER.",
    ),
    9: Words(
        "BadBinary",
        "A binary has other digits, or bits that it must not have.",
        "A BINARY is a digit 0 to 3 and then hexadecimal digits in upper case. The first digit says how many bits at the left don't count, and these have to be zero. Here three bits don't count, and `3` is 0011.",
    ),
    10: Words(
        "NameRange",
        "The name of an instance is over 18446744073709551615.",
        "Names of instances go up to 18446744073709551615. Renumber the file.",
    ),
    11: Words(
        "BadName",
        "No digit stands behind #.",
        "No digit stands behind `#`. Leave out what stands between.",
    ),
    20: Words(
        "Unexpected",
        "No statement goes on with this token.",
        "No statement goes on with this token. Here the `;` is missing, which shows at `#2`. Other causes are a comma or a parenthesis too many or too few; an apostrophe inside a string, which ends it; a keyword as a value that should be an item, `T` for `.T.`; a name of an instance in the header; sections in another order. At statement 1 the schema was given as the file, or the file is a zip archive, or UTF-16 without a mark.\n\nWanted here: `\";\"`. With `--format jsonl` the program says which tokens could stand there, as its parser would take them (`expected`): signs and the words of sections as they are spelled, and else by the words of the standard, `keyword`, `user-defined keyword`, `instance name`, `integer`, `real`, `string`, `enumeration` and `binary`. `p21-where` says it in words: \"a value\", or of the values \"a number\", \"a text\", \"an item\", \"a binary\", \"the name of an instance\", `\"$\"`, `\"*\"` and \"a keyword\" those that could; of the signs `\"(\"`, `\")\"`, `\",\"`, `\"=\"` and `\";\"`; or the word that begins a statement, as ENDSEC.\n\nLook at the named statement up to its end, and at the one before it.",
    ),
    21: Words(
        "TooDeep",
        "Lists and typed parameters stand more than 64 deep.",
        "Lists and typed parameters may stand in one another 64 deep; this is the 65th. No product model comes near that. The file is broken, or somebody made it to break programs.",
    ),
    22: Words(
        "RecordTooLong",
        "A statement has too many bytes.",
        "A statement has more than 536,870,912 bytes, separators and remarks between its tokens not counted. A caller of the library can set another limit. Mostly an apostrophe or a `;` is missing somewhere in a very large file.",
    ),
    23: Words(
        "FileTooLong",
        "The file, or the text of param, has too many bytes.",
        "The file has more than 68,719,476,736 bytes; the text of `p21 param` more than 16,777,216. A caller of the library can set another limit for files.",
    ),
    24: Words(
        "EndsEarly",
        "The file ends before END-ISO-10303-21;.",
        "`examples/refused/EndsEarly.step`: `refused 24 EndsEarly at statement 10`\n\nThe file ends before `END-ISO-10303-21;`. It was cut off on its way, or its producer stopped. An empty file is refused so too, at statement 1.\n\nGet it again. Don't write the missing end by hand: whatever else got lost would stay lost.",
    ),
    25: Words(
        "AfterEnd",
        "Something follows END-ISO-10303-21;.",
        "Behind `END-ISO-10303-21;`:\n\nWanted here: nothing but blanks and remarks behind END-ISO-10303-21;. The file is complete and something follows. Two files were joined to one, or a longer one was written over in part. Separators, line ends and remarks may follow; so may the byte 1A of old systems.",
    ),
    26: Words(
        "LeftOut",
        "A form that is not read; its name is in parentheses.",
        "This is STEP that `p21` leaves out. The name in parentheses says what it is:\n\n| Name | What it is | Instead |\n|---|---|---|\n| `UserKeyword` | an entity of the user's own, `!MY_POINT` | declare it in the schema and write it without `!`; in further header records these are read |\n| `Scope` | `&SCOPE` .. `ENDSCOPE` | write the instances one behind the other |\n| `ConstantName` | `#NAME`, an instance that the schema has as a constant | write the instance into the file |\n| `ValueName` | `@1` or `@NAME`, a name of a value | write the value |\n| `Anchor`, `Reference`, `Signature` | sections of the third edition | leave the section out; but a signature is then gone |\n| `SecondSection` | two data sections of which one has no name | name each: `DATA('a',('PRODUCT_MODEL'));` |\n| `NoDataSection` | a file of a header alone | write an empty one: `DATA;` `ENDSEC;` |",
    ),
    27: Words(
        "CanonicalTooLong",
        "A canonical statement or file has too many bytes.",
        "One canonical statement has more than 268,435,456 bytes, or all canonical lines together more than 4,294,967,296. The canonical file can be longer than the file: each character outside ASCII takes twelve bytes or more. A caller of the library can set another limit.",
    ),
    30: Words(
        "HeaderShape",
        "A record of the header has another form than it must have.",
        "In place of the line of FILE_NAME:\n\nThe header begins with three records, in this order and of this form:\n\nHere FILE_NAME has 7 parameters, and here are 6; without one: authorization. `p21-where` names the parameter, as \"parameter 3 of FILE_NAME, author\", and what is wanted here, as \"a list of texts, or $\". In the first two records a text in a list may be `$` too, and lists may be empty; FILE_SCHEMA has its text. Other records come behind these three, with other keywords. A file of several schemas is refused here, as its FILE_SCHEMA has several texts.",
    ),
    31: Words(
        "SchemaName",
        "The file is of another schema than the one given.",
        "In place of the line of FILE_SCHEMA:\n\nThe file says that it is of another schema than the one that it is checked against; `p21-where` says here that the file is of AUTOMOTIVE_DESIGN, the schema text of PRODUCT_MODEL. The letters, digits and `_` in front are compared, upper and lower case alike; what follows, such as an object identifier, isn't looked at.\n\nCheck it against the schema that it names. `p21-where` prints both names. Where you know that both are one schema by two names, change the name in the schema text, by the command that `p21-where` prints; but then be sure.",
    ),
    32: Words(
        "SectionShape",
        "A data section has no name, or no list of one schema.",
        "In place of `DATA;`:\n\nWanted here: `DATA;` or `DATA('name',('SCHEMA'));`. A data section has either no parentheses at all or its name and a list of one schema, here `DATA('a',('PRODUCT_MODEL'));`.",
    ),
    33: Words(
        "SectionTwice",
        "Two data sections have one name.",
        "In place of `DATA;`:\n\nTwo data sections have one name. `'\\X\\61'` is the name `'a'` too. Name one of them anew, or join them.",
    ),
    40: Words(
        "DuplicateName",
        "Two instances have one name.",
        "Two instances have one name; `#01` is `#1`, and named sections share their names. Mostly two files were joined without renumbering one of them. Nobody can say which of the two instances a reference means, so this is refused even where both are alike.",
    ),
    41: Words(
        "UnknownEntity",
        "The schema has no entity of this keyword.",
        "The schema has no entity of this keyword. It is misspelled, or a short name, or the name of a TYPE, or it belongs to another schema or edition than the one given. Of several parts in parentheses one unknown part is enough.",
    ),
    42: Words(
        "Abstract",
        "The entity is abstract, and no subtype of it is there.",
        "The schema declares this entity ABSTRACT: an instance has to be one of its subtypes as well. Write the subtype that is meant, here LINE or CIRCLE.",
    ),
    43: Words(
        "PartMissing",
        "The instance lacks the part of a supertype.",
        "An instance in parentheses lists each of its entities with all of their supertypes. Here `NAMED_UNIT(*)` is missing. A supertype without attributes has its part too, with empty parentheses.",
    ),
    44: Words(
        "PartTwice",
        "An entity has two parts.",
        "An entity has two parts. It has one part alone, also where it is inherited in two ways.",
    ),
    45: Words(
        "Count",
        "The record has another number of values than the entity.",
        "CALENDAR_DATE has 3 attributes, and here are 2 values; without one: DAY_COMPONENT. The entity has another number of attributes than the record has values. `p21-where` says which values are missing: where the types leave one way alone in which the others fit, those of that way, and else the last ones. Without parentheses around the parts, the values of all supertypes come first, in the order in which the schema lists them, and an attribute that is derived has a place too, with `*` in it. `p21 schema` prints the attributes of each entity in this order.\n\nMostly the file was written for another edition of the schema.",
    ),
    46: Words(
        "Missing",
        "$ stands for a value that is not optional.",
        "`$` says that there is no value, and this attribute isn't OPTIONAL. In a list, too, each element needs a value, but for an ARRAY OF OPTIONAL. Give a value: `''` is one where a label has to be there and nobody knows what to write.",
    ),
    47: Words(
        "StarNotDerived",
        "* stands for a value that is not derived.",
        "`*` says that the schema derives the value, and it doesn't for this instance. Write the value; where there is none, `$`.",
    ),
    48: Words(
        "DerivedNotStar",
        "Something else than * stands for a derived value.",
        "The schema derives the value of this attribute, so the file has `*` there and nothing else, neither `$` nor the right value.",
    ),
    49: Words(
        "WrongKind",
        "The value is of another kind than its type.",
        "The value is of another kind than the type of its attribute: mostly an INTEGER (`80`) for a REAL (`80.`), a string for a number, one value for a list of one.\n\nWrite a real with its point. A NUMBER takes both.",
    ),
    50: Words(
        "Width",
        "A string or binary has another width than its type allows.",
        "The schema gives a STRING or a BINARY a width, and this value has more; with FIXED, another number. Characters are counted and not bytes: `\\X2\\00FC\\X0\\` is one.",
    ),
    51: Words(
        "Bounds",
        "A list has fewer or more elements than its type allows.",
        "The list has fewer or more elements than the schema allows: here one to three. An ARRAY has exactly the number of its indices, empty places counted.",
    ),
    52: Words(
        "NotDistinct",
        "Two elements that have to differ mean the same.",
        "Two elements of a SET, of a LIST OF UNIQUE or of an ARRAY OF UNIQUE are the same. What they mean is compared: `#2` and `#02` are the same, and so are `1.` and `10.E-1`, or two sets in another order. Leave one out.",
    ),
    53: Words(
        "UnknownItem",
        "The enumeration has no such item.",
        "The enumeration has no such item. BOOLEAN has `.T.` and `.F.`, and LOGICAL has `.U.` too; `.TRUE.` belongs to neither. Mostly the schema is of another edition.",
    ),
    54: Words(
        "SelectType",
        "The value has no type that its SELECT offers.",
        "The attribute is a SELECT. A value in it names its type, here `LENGTH_MEASURE(80.)`, and the type has to be one that the SELECT offers. The name of an instance stands there as it is, where the SELECT offers an entity.",
    ),
    55: Words(
        "TwoRedeclarations",
        "Two entities of the instance declare one attribute anew.",
        "No attribute of the example's schema can meet it. In this one, COUNTED and MEASURED both narrow the amount, and neither is a subtype of the other:\n\nIn a file of it (`FILE_SCHEMA(('TWO'));`):\n\nThe instance is of two entities that declare the same attribute anew, and neither is a subtype of the other, so that nothing says which type its value has. Leave out one of the two, or give the schema an entity below both that decides.",
    ),
    56: Words(
        "Dangling",
        "A reference names an instance that is not in the file.",
        "`#1` refers to an instance that isn't in the file. The instance that holds the reference is named. References may go forward, so this and 57 come when the whole file has been read.",
    ),
    57: Words(
        "WrongTarget",
        "A reference names an instance of the wrong entity.",
        "`#1` refers to an instance of another entity than the schema wants there: a point is wanted, and this is a direction. An instance of a subtype of what is wanted is right. The instance that holds the reference is named.",
    ),
    58: Words(
        "OneOf",
        "The instance is of two entities of which it may be one.",
        "The schema says ONEOF of two entities that this instance both is. Leave one part out.",
    ),
    59: Words(
        "Alike",
        "For --names alone: the model does not tell it from another one.",
        "With `--names`: `refused 59 Alike in #1`\n\nOnly where `--names` asks for it, and behind all other refusals: the model doesn't tell the instance from another one, here `#1` from `#2`; `p21 check --names --format jsonl` has the other one as `alike`. Neither their values nor what refers to them tells them apart, and so on from instance to instance; and they are no copies that may be exchanged, as those are of which whatever refers to one has a copy itself, or refers to all of them in one SET. Any numbers would be a guess then, so there are none. It says nothing against the file, which `p21 check`, `canon` and `same` take without `--names`.\n\n`p21 same --names` refuses two files so where neither is told apart, unless they are the same name by name; where one is and the other isn't, they are `different`. To get numbers, give one of the two instances a value that the other one hasn't, or leave one of them out.",
    ),
    90: Words(
        "NoMemory",
        "out of memory: memory ran out.",
        "`out of memory`: memory ran out. The program keeps the canonical file as it grows, and a little for each instance and each reference.",
    ),
}

SCHEMAS: Dict[int, Words] = {
    1: Words(
        "Token",
        "A string or remark has no end, or a byte begins no word.",
        "A string or a remark doesn't end, or outside of both stands a byte that no word of EXPRESS has, as `ü` or a byte order mark. Remarks nest: each `(*` wants a `*)` of its own.",
    ),
    2: Words(
        "Syntax",
        "No declaration goes on so.",
        "No declaration goes on so. Here the last `;` is missing. Other causes are a STEP file in place of the schema, with the arguments exchanged; SUBTYPE OF in front of SUPERTYPE OF; a word such as `type` or `list` as a name; several schemas in one file.",
    ),
    3: Words(
        "Duplicate",
        "A name is declared twice.",
        "Two entities or types have one name (upper and lower case are alike), or one name stands twice among the attributes of an entity, its supertypes, the items of an enumeration, the types of a SELECT or the entities of a ONEOF; or an entity declares one inherited attribute anew twice.",
    ),
    4: Words(
        "UnknownName",
        "A name is declared nowhere.",
        "A name is declared nowhere in this text; or what stands behind SUBTYPE OF or in a ONEOF is no entity; or a TYPE is just the name of an entity. Mostly the listing is one of several that belong together: take the long form, which has all of them.",
    ),
    5: Words(
        "Circular",
        "An entity, a type or a SELECT stands in itself.",
        "An entity is its own supertype, a TYPE its own name, or a SELECT stands in itself, over however many steps.",
    ),
    6: Words(
        "LeftOut",
        "A form of EXPRESS that is not read.",
        "Where it is a published listing, `p21-adapt` makes a copy that fits: `p21-adapt LISTING -o COPY`. This is EXPRESS that `p21` leaves out: USE, REFERENCE, EXTENSIBLE, BASED_ON, GENERIC, GENERIC_ENTITY, AGGREGATE, RENAMED, a SELECT without a list, bounds and widths that are computed, a TYPE that is just the name of a SELECT.",
    ),
    7: Words(
        "Bounds",
        "Bounds or a width that cannot be.",
        "A lower bound above its upper one, `?` as a lower bound or in an ARRAY, a width of 0, or a bound or width over 4294967295.",
    ),
    8: Words(
        "RedeclaredPlace",
        "What is declared anew is no attribute of a supertype.",
        "`SELF\\a.z` stands for an attribute of a supertype, and `a` has no `z`, or several that it inherits, or isn't a supertype of this entity.",
    ),
    9: Words(
        "TooLarge",
        "The schema is over a limit.",
        "The text has over 16,777,216 bytes, the schema over 65,535 entities and types together, or a type more than 32 aggregates in one another. `p21-adapt` says of a listing what else doesn't fit: `p21-adapt LISTING -o COPY`.",
    ),
}
