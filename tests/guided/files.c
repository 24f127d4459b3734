/* Files under one schema (schema.exp). The first byte of an input says what stands around the others (replay.py has it too):
   the last four bits are 1 for nothing, 2 for a header and an end alone, else for a data section too. */
#include "program.h"

extern const char SCHEMA_TEXT[];

static const char HEADER[] = "ISO-10303-21;\nHEADER;\nFILE_DESCRIPTION((''),'2;1');\nFILE_NAME('','',(''),(''),'','','');\n"
                             "FILE_SCHEMA(('R'));\nENDSEC;\n";
static const char DATA[] = "DATA;\n", DATA_END[] = "ENDSEC;\n", END[] = "END-ISO-10303-21;\n";

int LLVMFuzzerTestOneInput(const uint8_t *bytes, size_t length) {
    static uint64_t turn;
    if (length == 0)
        return 0;
    int around = bytes[0] & 15;
    schema.length = file.length = 0;
    append(&schema, SCHEMA_TEXT, strlen(SCHEMA_TEXT));
    if (around != 1)
        append(&file, HEADER, strlen(HEADER));
    if (around != 1 && around != 2)
        append(&file, DATA, strlen(DATA));
    append(&file, bytes + 1, length - 1);
    if (around != 1 && around != 2)
        append(&file, DATA_END, strlen(DATA_END));
    if (around != 1)
        append(&file, END, strlen(END));
    try_file(bytes[0] & 16 ? BYTE_BY_BYTE : BY_CHANCE, ++turn % 6 == 0);
    return 0;
}
