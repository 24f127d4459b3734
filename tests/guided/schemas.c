/* Schemas with files. An input is the declarations of a schema of the name S up to a byte FE, and the instances of a file behind
   it (replay.py has it too). */
#include "program.h"

static const char FRONT[] = "SCHEMA s;", BACK[] = "END_SCHEMA;";
static const char HEADER[] = "ISO-10303-21;\nHEADER;\nFILE_DESCRIPTION((''),'2;1');\nFILE_NAME('','',(''),(''),'','','');\n"
                             "FILE_SCHEMA(('S'));\nENDSEC;\nDATA;\n";
static const char END[] = "ENDSEC;\nEND-ISO-10303-21;\n";
enum { BETWEEN = 0xFE };

int LLVMFuzzerTestOneInput(const uint8_t *bytes, size_t length) {
    static uint64_t turn;
    const uint8_t *between = memchr(bytes, BETWEEN, length);
    size_t of_schema = between ? (size_t)(between - bytes) : length;
    schema.length = file.length = 0;
    append(&schema, FRONT, strlen(FRONT));
    append(&schema, bytes, of_schema);
    append(&schema, BACK, strlen(BACK));
    if (run_of(0, WHOLE, "schema", NULL, NULL) != 0)
        return 0;
    append(&file, HEADER, strlen(HEADER));
    if (between)
        append(&file, between + 1, length - of_schema - 1);
    append(&file, END, strlen(END));
    turn++;
    try_file(turn & 1 ? BYTE_BY_BYTE : BY_CHANCE, turn % 6 == 0);
    return 0;
}
