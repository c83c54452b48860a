/* Calls Unvriscol from C and prints the answers, which are those of examples/door.stdout. From a fresh clone:
 *
 *     (cd crates/unvriscol && rt lib)
 *     mkdir -p target
 *     gcc -Wall -Wextra -Iinclude -o target/door examples/door.c crates/unvriscol/out/libunvriscol.a
 *     target/door
 */
#include <inttypes.h>
#include <stdio.h>
#include <string.h>
#include "unvriscol.h"

static void op(const char *what, const uint8_t *record) {
    printf("%s ", what);
    for (size_t i = 0; i < UV_OP_RECORD; i++)
        printf(" %u", record[i]);
    printf("\n");
}

static void decoded(const char *what, uint64_t number, const uint8_t *record) {
    printf("%-34s %" PRIu64, what, number);
    op("", record);
}

static void word(const char *what, uint64_t reading, uint32_t raw) {
    uint8_t record[UV_OP_RECORD];
    memset(record, 255, sizeof record);
    decoded(what, uv_decode_word(reading, raw, record, sizeof record), record);
}

static void halfword(const char *what, uint64_t reading, uint16_t raw) {
    uint8_t record[UV_OP_RECORD];
    memset(record, 255, sizeof record);
    decoded(what, uv_decode_halfword(reading, raw, record, sizeof record), record);
}

static void answer(const char *what, uv_answer a) {
    printf("%-34s %" PRIu64 "  0x%" PRIX64 "\n", what, a.number, a.value);
}

static void report(const char *what, uv_report r) {
    printf("%-34s %" PRIu64 "  %" PRIu64 " examined, %" PRIu64 " dropped\n", what, r.number, r.examined, r.dropped);
}

static void number(const char *what, uint64_t n) {
    printf("%-34s %" PRIu64 "\n", what, n);
}

static void yes(const char *what, int so) {
    printf("%-34s %s\n", what, so ? "yes" : "no");
}

static void decode_and_compute(void) {
    uint8_t record[UV_OP_RECORD] = {0};

    word("addi a0, zero, 1", UV_READING_RUST, 0x00100513);
    word("ecall: no op, no byte changed", UV_READING_RUST, 0x00000073);
    halfword("c.jr ra", UV_READING_RUST, 0x8082);
    halfword("c.ebreak: no op, no byte changed", UV_READING_RUST, 0x9002);
    word("minu a0, a1, a2: the Rust's max", UV_READING_RUST, 0x0AC5D533);
    word("minu a0, a1, a2: the manual's", UV_READING_MANUAL, 0x0AC5D533);
    halfword("c.lwsp with rd 0: the Rust's lw", UV_READING_RUST, 0x4002);
    halfword("c.lwsp with rd 0: the manual's", UV_READING_MANUAL, 0x4002);
    word("a reading that is none", 2, 0x00100513);
    decoded("a record of 15 bytes", uv_decode_word(UV_READING_RUST, 0x00100513, record, 15), record);
    answer("sra of 2^63 by 1", uv_alu(UV_ALU_SRA, UINT64_C(1) << 63, 1));
    answer("addw of 0x7FFFFFFF and 1", uv_alu(UV_ALU_ADDW, 0x7FFFFFFF, 1));
    answer("mul: refused", uv_alu(UV_ALU_MUL, 6, 7));
}

/* A block is formed, kept, found, and dropped by a write to its page: store and blocks in one reading. */
static void round_of_the_cache(void) {
    enum { READING = UV_READING_MANUAL, E = 2, PAGES = 2, BASE = 0x1000, ROUTINE = 0x1006 };
    static uint8_t memory[PAGES * UV_PAGE] = {0, 0, 0, 0, 0, 0, 0x13, 0x05, 0x10, 0x00, 0x82, 0x80}; /* addi a0, zero, 1; c.jr ra */
    static uint8_t store[UV_STORE(E, PAGES)];
    uint8_t record[UV_BLOCK_RECORD];

    number("make 4 slots over 2 pages", uv_make(store, sizeof store, READING, E, BASE, PAGES));
    number("form the routine's block", uv_form(READING, memory, sizeof memory, BASE, ROUTINE, record, sizeof record));
    yes("  in the store's reading", store[UV_HEADER_AT_READING] == READING);
    op("  its first op ", record + UV_BLOCK_AT_OPS);
    op("  its second op", record + UV_BLOCK_AT_OPS + UV_OP_RECORD);
    answer("lookup: not there yet", uv_lookup(store, sizeof store, ROUTINE));
    number("insert", uv_insert(store, sizeof store, ROUTINE, record, sizeof record));
    number("insert at 0x1000: not its record", uv_insert(store, sizeof store, 0x1000, record, sizeof record));
    answer("generation", uv_generation(store, sizeof store));

    uv_answer hit = uv_lookup(store, sizeof store, ROUTINE);
    answer("lookup: where in the store", hit);
    yes("  its slot's place is there", hit.value == UV_PLACE(E, PAGES, ROUTINE));
    yes("  the record is there", memcmp(store + hit.value, record, sizeof record) == 0);

    /* Lent buffers do not overlap, so a record of the store is copied before it is inserted again. */
    memcpy(record, store + hit.value, sizeof record);
    number("insert it again, by a copy", uv_insert(store, sizeof store, ROUTINE, record, sizeof record));

    report("write to the other page", uv_guest_write(store, sizeof store, memory, sizeof memory, 0x2000, 8, 1));
    answer("lookup: still there", uv_lookup(store, sizeof store, ROUTINE));
    report("write into the block", uv_guest_write(store, sizeof store, memory, sizeof memory, ROUTINE + 4, 2, 0x0001));
    answer("lookup: gone", uv_lookup(store, sizeof store, ROUTINE));
    report("write past the end: refused", uv_guest_write(store, sizeof store, memory, sizeof memory, 0x2FFF, 2, 0));

    number("form: c.nop now, and no c.jr", uv_form(READING, memory, sizeof memory, BASE, ROUTINE, record, sizeof record));
    op("  its second op", record + UV_BLOCK_AT_OPS + UV_OP_RECORD);
    number("insert", uv_insert(store, sizeof store, ROUTINE, record, sizeof record));
    report("notice of a write elsewhere", uv_notice(store, sizeof store, 0x2000));
    report("notice of a write to its page", uv_notice(store, sizeof store, 0x1FFF));

    /* A batch of writes, in any order: both pages, the block's twice, and one outside memory. */
    const uint64_t written[] = {0x2000, ROUTINE, 0x3000, 0x1FFF};
    number("insert", uv_insert(store, sizeof store, ROUTINE, record, sizeof record));
    report("notices: a list of none", uv_notices(store, sizeof store, NULL, 0));
    report("notices of four writes", uv_notices(store, sizeof store, written, sizeof written / sizeof written[0]));
    report("notices of them again", uv_notices(store, sizeof store, written, sizeof written / sizeof written[0]));
    answer("lookup: gone", uv_lookup(store, sizeof store, ROUTINE));
    number("flush", uv_flush(store, sizeof store));
    answer("generation", uv_generation(store, sizeof store));
}

int main(void) {
    number("version", UNVRISCOL_VERSION);
    number("bytes of the longest store", UV_STORE(UV_MAX_E, UV_MAX_PAGES));
    decode_and_compute();
    round_of_the_cache();
    return 0;
}
