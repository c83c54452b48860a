/* Unvriscol in C: RISC-V decoding, block forming, a block cache, and the ALU without multiply and divide. Each function is proved: on all inputs it
 * ends, and its number, what stands beside it and every lent byte afterwards are what docs/PROMISES.md says. docs/FORMATS.md has the formats with
 * drawings.
 *
 * Link crates/unvriscol/out/libunvriscol.a, which `rt lib` in crates/unvriscol writes, for x86-64 Linux. Of the C library it needs memcpy, memmove and
 * memset.
 * examples/door.c makes every call.
 *
 * What a call asks of its caller:
 *
 * - A pointer beside a length means that many bytes, and one beside a count that many addresses, lent for the call: none is kept. Bytes need no
 *   alignment, addresses that of a uint64_t, and with length or count 0 the pointer may be NULL.
 * - Lent buffers do not overlap. What a lookup shows is a part of the store: to insert that record in the same store again, copy it out first.
 * - One caller at a time per store, as for every buffer that a call writes; calls that take a buffer as const may run beside each other. The library
 *   has no state of its own, allocates nothing, starts no thread and takes no lock.
 *
 * An `address` is a guest address, neither a pointer nor an offset: the first byte of guest memory has the address `base`. */
#ifndef UNVRISCOL_H
#define UNVRISCOL_H

#include <stddef.h>
#include <stdint.h>

/* This header's version, as one number that grows: 400 is 0.4.0. */
#define UNVRISCOL_VERSION_MAJOR 0
#define UNVRISCOL_VERSION_MINOR 4
#define UNVRISCOL_VERSION_PATCH 0
#define UNVRISCOL_VERSION (10000 * UNVRISCOL_VERSION_MAJOR + 100 * UNVRISCOL_VERSION_MINOR + UNVRISCOL_VERSION_PATCH)

#ifdef __cplusplus
extern "C" {
#endif

/* ---- What a call answers (docs/FORMATS.md, "Answer numbers") */

/* The numbers. On every one but UV_DONE each value beside it is 0, and no lent byte has changed. */
#define UV_DONE 0           /* done, or a hit */
#define UV_NO_STORE 1       /* the store's length or header is not a store's */
#define UV_GEOMETRY 2       /* reading, memory or e outside the bounds below, or memory length not that of the store */
#define UV_OUTSIDE_MEMORY 3 /* an address, or any byte of a write, outside memory */
#define UV_NOTHING_THERE 4  /* no block forms there; the word or halfword has no op */
#define UV_ILL_FORMED 5     /* block record not well formed for the address */
#define UV_RECORD_LENGTH 6  /* the lent record has another length than a record's */
#define UV_NO_KIND 7        /* ALU kind unknown, or 15 to 27 (multiply and divide) */
#define UV_WRITE_SIZE 8     /* write size not 1, 2, 4 or 8 */
#define UV_MISS 9           /* lookup finds nothing, also for an address outside memory */

/* A number and the value beside it. */
typedef struct {
    uint64_t number;
    uint64_t value;
} uv_answer;

/* A number, and beside it what a notice, a list of them or a guest write did: the sum over its pages, each counted once. */
typedef struct {
    uint64_t number;
    uint64_t examined; /* slots that were looked at: 2^e for each page with its bit set */
    uint64_t dropped;  /* places that were emptied: those whose address lay in such a page, in the store as it was before the call */
} uv_report;

/* ---- The bounds (docs/FORMATS.md, "Bounds"); UV_GEOMETRY is the answer outside them */

#define UV_PAGE 4096                      /* bytes of a page */
#define UV_MAX_PAGES 65536                /* guest memory is 1 to so many whole pages, from a base that is a multiple of UV_PAGE */
#define UV_MEMORY_END ((uint64_t)1 << 56) /* base + length is at most this */
#define UV_MAX_E 14                       /* a store has 2^e slots, e from 0 to this */

/* ---- The readings (docs/FORMATS.md, "Readings"): what words and halfwords decode to; UV_GEOMETRY is the answer to any other number
 *
 * They part at the encodings of docs/DIFFERENCES.md alone, MINU among them. A store has one reading, and its blocks are to be formed in that one. */

#define UV_READING_RUST 0   /* as the Rust core decodes */
#define UV_READING_MANUAL 1 /* as the RISC-V manual says */

/* ---- The op record (docs/FORMATS.md, "The op record"): numbers are little-endian, and a field that the op lacks is 0 */

#define UV_OP_RECORD 16

/* Where each field begins. */
#define UV_OP_AT_OP 0     /* enum uv_op */
#define UV_OP_AT_KIND 1   /* of the enum that the op has */
#define UV_OP_AT_RD 2     /* registers: 0 to 31 */
#define UV_OP_AT_RS1 3
#define UV_OP_AT_RS2 4
#define UV_OP_AT_ILEN 5   /* bytes of the instruction: 2 or 4 */
#define UV_OP_AT_PC_OFF 6 /* 2 bytes: how far the instruction stands from the block's address */
#define UV_OP_AT_IMM 8    /* 8 bytes, two's complement */

/* The ops, with the fields that each has beside ilen and pc_off (docs/FORMATS.md, "Op numbers"). */
enum uv_op {
    UV_OP_LUI = 0,     /* rd, imm */
    UV_OP_AUIPC = 1,   /* rd, imm */
    UV_OP_ALU_IMM = 2, /* enum uv_alu_kind, rd, rs1, imm */
    UV_OP_ALU_REG = 3, /* enum uv_alu_kind, rd, rs1, rs2 */
    UV_OP_LOAD = 4,    /* enum uv_load_kind, rd, rs1, imm */
    UV_OP_STORE = 5,   /* enum uv_store_kind, rs1, rs2, imm */
    UV_OP_BRANCH = 6,  /* enum uv_branch_kind, rs1, rs2, imm */
    UV_OP_JAL = 7,     /* rd, imm */
    UV_OP_JALR = 8,    /* rd, rs1, imm */
    UV_OP_FALLBACK = 9 /* imm: a word without an op of its own, zero-extended, for the host to run; forming alone gives it, and its ilen is 4 */
};

/* The kinds; what each ALU kind computes: docs/FORMATS.md, "Kinds". */
enum uv_alu_kind {
    /* RV64I */
    UV_ALU_ADD = 0, UV_ALU_SUB = 1, UV_ALU_SLL = 2, UV_ALU_SLT = 3, UV_ALU_SLTU = 4,
    UV_ALU_XOR = 5, UV_ALU_SRL = 6, UV_ALU_SRA = 7, UV_ALU_OR = 8, UV_ALU_AND = 9,
    UV_ALU_ADDW = 10, UV_ALU_SUBW = 11, UV_ALU_SLLW = 12, UV_ALU_SRLW = 13, UV_ALU_SRAW = 14,
    /* M: they decode, and uv_alu refuses them */
    UV_ALU_MUL = 15, UV_ALU_MULH = 16, UV_ALU_MULHSU = 17, UV_ALU_MULHU = 18, UV_ALU_DIV = 19,
    UV_ALU_DIVU = 20, UV_ALU_REM = 21, UV_ALU_REMU = 22, UV_ALU_MULW = 23, UV_ALU_DIVW = 24,
    UV_ALU_DIVUW = 25, UV_ALU_REMW = 26, UV_ALU_REMUW = 27,
    /* Zbb; from UV_ALU_CLZ on they look at the left operand alone */
    UV_ALU_ANDN = 28, UV_ALU_ORN = 29, UV_ALU_XNOR = 30, UV_ALU_ROL = 31, UV_ALU_ROR = 32,
    UV_ALU_ROLW = 33, UV_ALU_RORW = 34, UV_ALU_MIN = 35, UV_ALU_MAX = 36, UV_ALU_MINU = 37,
    UV_ALU_MAXU = 38, UV_ALU_CLZ = 39, UV_ALU_CTZ = 40, UV_ALU_CPOP = 41, UV_ALU_CLZW = 42,
    UV_ALU_CTZW = 43, UV_ALU_CPOPW = 44, UV_ALU_SEXT_B = 45, UV_ALU_SEXT_H = 46, UV_ALU_ZEXT_H = 47,
    UV_ALU_REV8 = 48, UV_ALU_ORC_B = 49,
    /* Zba */
    UV_ALU_SH1ADD = 50, UV_ALU_SH2ADD = 51, UV_ALU_SH3ADD = 52, UV_ALU_ADD_UW = 53, UV_ALU_SH1ADD_UW = 54,
    UV_ALU_SH2ADD_UW = 55, UV_ALU_SH3ADD_UW = 56, UV_ALU_SLLI_UW = 57
};

enum uv_load_kind {
    UV_LOAD_LB = 0, UV_LOAD_LBU = 1, UV_LOAD_LH = 2, UV_LOAD_LHU = 3, UV_LOAD_LW = 4, UV_LOAD_LWU = 5, UV_LOAD_LD = 6
};

enum uv_store_kind { UV_STORE_SB = 0, UV_STORE_SH = 1, UV_STORE_SW = 2, UV_STORE_SD = 3 };

enum uv_branch_kind {
    UV_BRANCH_BEQ = 0, UV_BRANCH_BNE = 1, UV_BRANCH_BLT = 2, UV_BRANCH_BGE = 3, UV_BRANCH_BLTU = 4, UV_BRANCH_BGEU = 5
};

/* ---- The block record (docs/FORMATS.md, "The block record"): a head of 16 bytes, then UV_MAX_OPS op records, the unused ones all zero
 *
 * It is well formed for an address when it begins with that address and has 1 to UV_MAX_OPS ops, whose records are as above and whose pc_off grows
 * from 0 by each ilen; byte_len is the sum of the ilens and stays in the page; Jal and Jalr stand only last; every other byte is 0. */

#define UV_MAX_OPS 64
#define UV_BLOCK_RECORD 1040

#define UV_BLOCK_AT_ADDRESS 0   /* 8 bytes */
#define UV_BLOCK_AT_COUNT 8     /* 2 bytes: how many ops */
#define UV_BLOCK_AT_BYTE_LEN 10 /* 2 bytes: how many bytes of guest memory; four zeros follow */
#define UV_BLOCK_AT_OPS 16

/* ---- The store (docs/FORMATS.md, "The store"): a header, a bit for each page that may have blocks, and 2^e places of a block record each
 *
 * Its bytes are the caller's to keep and the calls' to write. Where something else wrote on them, and length and header are still a store's, calls go
 * by the bytes as they stand. An empty place has eight address bytes of 255, and zeros. */

#define UV_HEADER 32
#define UV_STORE_VERSION 1

#define UV_HEADER_AT_NAME 0        /* 'V', 'B', 'C' */
#define UV_HEADER_AT_READING 3     /* 1 byte */
#define UV_HEADER_AT_VERSION 4     /* 2 bytes: UV_STORE_VERSION */
#define UV_HEADER_AT_E 6           /* 1 byte, and a zero */
#define UV_HEADER_AT_BASE 8        /* 8 bytes */
#define UV_HEADER_AT_PAGES 16      /* 8 bytes */
#define UV_HEADER_AT_GENERATION 24 /* 8 bytes */

/* Where the places begin: behind the header and the bitmap, which has 8 bytes for each begun 64 pages. */
#define UV_FRONT(pages) (UV_HEADER + ((size_t)(pages) + 63) / 64 * 8)

/* The length of a store with 2^e slots for a memory of so many pages. */
#define UV_STORE(e, pages) (UV_FRONT(pages) + ((size_t)UV_BLOCK_RECORD << (e)))

/* The slot of an address: (address / 2) mod 2^e. Addresses of one slot take each other's place. */
#define UV_SLOT(e, address) ((uint64_t)(address) / 2 % ((uint64_t)1 << (e)))

/* Where in the store the place of an address begins; a hit's value is this. */
#define UV_PLACE(e, pages, address) (UV_FRONT(pages) + UV_BLOCK_RECORD * UV_SLOT(e, address))

/* ---- The calls (docs/FORMATS.md, "What the calls do"); where several refusals would do, the first in the order given is answered */

/* Decode in a reading into a record of UV_OP_RECORD bytes, with pc_off 0. Refusals: 2, 6, 4. */
uint64_t uv_decode_word(uint64_t reading, uint32_t raw, uint8_t *record, size_t record_len);
uint64_t uv_decode_halfword(uint64_t reading, uint16_t raw, uint8_t *record, size_t record_len);

/* What the ALU kind of that number makes of two operands; the value is the result. Refusal: 7. */
uv_answer uv_alu(uint64_t kind, uint64_t lhs, uint64_t rhs);

/* Form in a reading the block at an address of guest memory, which is whole pages from base on, into a record of UV_BLOCK_RECORD bytes. The address
 * may be odd. Where a block ends: docs/FORMATS.md, "Forming". Refusals: 2, 6, 3, 4. */
uint64_t uv_form(uint64_t reading, const uint8_t *memory, size_t memory_len, uint64_t base, uint64_t address, uint8_t *record,
                 size_t record_len);

/* Make a store of UV_STORE(e, pages) bytes, whatever they were, for blocks in a reading of the memory that is so many pages from base on.
 * Refusals: 2, 1. */
uint64_t uv_make(uint8_t *store, size_t store_len, uint64_t reading, uint64_t e, uint64_t base, uint64_t pages);

/* Look the block at an address up; the value is where in the store its UV_BLOCK_RECORD bytes begin. They are to be read there, and are that record
 * until the next call that changes the store: uv_make, uv_insert, uv_notice, uv_notices, uv_flush or uv_guest_write. Refusals: 1, 9. */
uv_answer uv_lookup(const uint8_t *store, size_t store_len, uint64_t address);

/* Insert the record of the block at an address, in the place of whatever its slot held. The record does not say in which reading it was formed, so
 * that is not judged. Refusals: 1, 6, 3, 5. */
uint64_t uv_insert(uint8_t *store, size_t store_len, uint64_t address, const uint8_t *record, size_t record_len);

/* Tell the cache of a write at an address, after the write and before the next lookup: the blocks of its page are dropped. A write that crosses into
 * a second page needs a notice for each. Where only calls have changed the store: examined is 2^e exactly when the page has had an insertion since
 * its last notice, guest write or flush, else 0, also for an address outside memory; dropped is above 0 exactly when a lookup of some address of the
 * page would have hit just before. Refusal: 1. */
uv_report uv_notice(uint8_t *store, size_t store_len, uint64_t address);

/* Tell the cache of writes at so many addresses, after the last of them and before the next lookup: one notice after the other, with examined and
 * dropped the sums. The list has an address in each page that the writes touched, and is only read. Order and repeats change nothing, neither in the
 * store nor in the sums: addresses of one page are one notice. The header is checked once, and of an empty list that is all. Refusal: 1. */
uv_report uv_notices(uint8_t *store, size_t store_len, const uint64_t *addresses, size_t count);

/* Empty every place; the generation is kept. Refusal: 1. */
uint64_t uv_flush(uint8_t *store, size_t store_len);

/* The value is the generation: 1 at first, and 1 more with each insertion, wrapping. Refusal: 1. */
uv_answer uv_generation(const uint8_t *store, size_t store_len);

/* Write the low 1, 2, 4 or 8 bytes of a value to guest memory, after a notice for each page touched. The memory is all of that of the store: its
 * first byte has the store's base for address. examined and dropped are the sums over its pages. Refusals: 1, 2, 8, 3. */
uv_report uv_guest_write(uint8_t *store, size_t store_len, uint8_t *memory, size_t memory_len, uint64_t address, uint64_t size,
                         uint64_t value);

#ifdef __cplusplus
}
#endif

#endif
