/* The code's side of tools/outside: for each line `LENGTH ENCODING` of standard input, decimal, one line with what the C function decodes it to in the
 * manual's reading: op, kind, rd, rs1, rs2 and immediate, or `none`. A number other than 0 and 4, or a record that is not a decoded op's, ends it. */
#include <inttypes.h>
#include <stdio.h>
#include <string.h>
#include "unvriscol.h"

int main(void) {
    unsigned length;
    uint32_t encoding;
    while (scanf("%u %" SCNu32, &length, &encoding) == 2) {
        uint8_t record[UV_OP_RECORD];
        memset(record, 170, sizeof record);
        uint64_t number = length == 2 ? uv_decode_halfword(UV_READING_MANUAL, (uint16_t)encoding, record, sizeof record)
                                      : uv_decode_word(UV_READING_MANUAL, encoding, record, sizeof record);
        if (number == UV_NOTHING_THERE) {
            puts("none");
            continue;
        }
        if (number != UV_DONE || record[UV_OP_AT_ILEN] != length || record[UV_OP_AT_PC_OFF] || record[UV_OP_AT_PC_OFF + 1])
            return 1;
        uint64_t imm = 0;
        for (int i = 7; i >= 0; i--)
            imm = imm << 8 | record[UV_OP_AT_IMM + i];
        printf("%u %u %u %u %u %" PRId64 "\n", record[UV_OP_AT_OP], record[UV_OP_AT_KIND], record[UV_OP_AT_RD], record[UV_OP_AT_RS1],
               record[UV_OP_AT_RS2], (int64_t)imm);
    }
    return 0;
}
