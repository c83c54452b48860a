/* Both sides of tools/outside_alu, which make the same operands. Made for RISC-V, it runs each instruction on all of them and writes the
 * results; given any argument, it prints few, with their operands. Made for x86-64, it reads the results and tells where uv_alu's are others. */
#include <inttypes.h>
#include <stdio.h>
#include <stdlib.h>

/* Each instruction under its kind and the kind's number: of two registers, of one, or of one and an immediate, with the first immediate and how
 * many there are. */
#define INSTRUCTIONS                                                                                                                     \
    TWO(Add, 0, "add") TWO(Sub, 1, "sub") TWO(Sll, 2, "sll") TWO(Slt, 3, "slt") TWO(Sltu, 4, "sltu") TWO(Xor, 5, "xor")                  \
    TWO(Srl, 6, "srl") TWO(Sra, 7, "sra") TWO(Or, 8, "or") TWO(And, 9, "and") TWO(Addw, 10, "addw") TWO(Subw, 11, "subw")                \
    TWO(Sllw, 12, "sllw") TWO(Srlw, 13, "srlw") TWO(Sraw, 14, "sraw") TWO(Andn, 28, "andn") TWO(Orn, 29, "orn") TWO(Xnor, 30, "xnor")    \
    TWO(Rol, 31, "rol") TWO(Ror, 32, "ror") TWO(Rolw, 33, "rolw") TWO(Rorw, 34, "rorw") TWO(Min, 35, "min") TWO(Max, 36, "max")          \
    TWO(Minu, 37, "minu") TWO(Maxu, 38, "maxu") TWO(Sh1add, 50, "sh1add") TWO(Sh2add, 51, "sh2add") TWO(Sh3add, 52, "sh3add")            \
    TWO(AddUw, 53, "add.uw") TWO(Sh1addUw, 54, "sh1add.uw") TWO(Sh2addUw, 55, "sh2add.uw") TWO(Sh3addUw, 56, "sh3add.uw")                \
    ONE(Clz, 39, "clz") ONE(Ctz, 40, "ctz") ONE(Cpop, 41, "cpop") ONE(Clzw, 42, "clzw") ONE(Ctzw, 43, "ctzw") ONE(Cpopw, 44, "cpopw")    \
    ONE(SextB, 45, "sext.b") ONE(SextH, 46, "sext.h") ONE(ZextH, 47, "zext.h") ONE(Rev8, 48, "rev8") ONE(OrcB, 49, "orc.b")              \
    IMMEDIATE(Add, 0, "addi", -2048, 4096) IMMEDIATE(Sll, 2, "slli", 0, 64) IMMEDIATE(Slt, 3, "slti", -2048, 4096)                       \
    IMMEDIATE(Sltu, 4, "sltiu", -2048, 4096) IMMEDIATE(Xor, 5, "xori", -2048, 4096) IMMEDIATE(Srl, 6, "srli", 0, 64)                     \
    IMMEDIATE(Sra, 7, "srai", 0, 64) IMMEDIATE(Or, 8, "ori", -2048, 4096) IMMEDIATE(And, 9, "andi", -2048, 4096)                         \
    IMMEDIATE(Addw, 10, "addiw", -2048, 4096) IMMEDIATE(Sllw, 12, "slliw", 0, 32) IMMEDIATE(Srlw, 13, "srliw", 0, 32)                    \
    IMMEDIATE(Sraw, 14, "sraiw", 0, 32) IMMEDIATE(Ror, 32, "rori", 0, 64) IMMEDIATE(Rorw, 34, "roriw", 0, 32)                            \
    IMMEDIATE(SlliUw, 57, "slli.uw", 0, 64)

typedef struct {
    const char *kind, *mnemonic;
    uint64_t number;
    uint64_t first, count; /* of immediates; count 0 where it takes none */
    uint64_t (*code)(uint64_t, uint64_t);
} instruction;

#define SAMPLE 18
#define RANDOM 1048576 /* pairs for each instruction, beside the edges */

/* The first SAMPLE of them are those that are tried where there is time for few. */
static uint64_t edges[1024] = {0, 1, 2, 31, 32, 63, 64, 127, 0x7fff, 0x8080, 0x7fffffff, 0x80000000, 0xffffffff, 0x100000000,
                               0x7fffffffffffffff, 0x8000000000000000, 0xffffffffffffffff, 0x0123456789abcdef};
static size_t edge_count = SAMPLE;

static void edge(uint64_t x)
{
    for (size_t n = 0; n < edge_count; n++)
        if (edges[n] == x)
            return;
    edges[edge_count++] = x;
}

/* Shift amounts and past them, single bits and the numbers beside them, all these inverted, and a byte repeated. */
static void make_edges(void)
{
    for (uint64_t x = 0; x < 128; x++)
        edge(x);
    for (int place = 0; place < 64; place++)
        for (uint64_t x = ((uint64_t)1 << place) - 1, n = 0; n < 3; x++, n++)
            edge(x), edge(~x);
    for (uint64_t ones = 0x0101010101010101; ones; ones <<= 8)
        edge(ones), edge(ones * 0x7f), edge(ones * 0x80), edge(ones * 0x55), edge(ones * 0xaa), edge(ones * 0x0f), edge(ones * 0xf0);
}

/* splitmix64 */
static uint64_t seed;
static uint64_t next(void)
{
    uint64_t x = seed += 0x9e3779b97f4a7c15;
    x = (x ^ x >> 30) * 0xbf58476d1ce4e5b9;
    x = (x ^ x >> 27) * 0x94d049bb133111eb;
    return x ^ x >> 31;
}

/* A random number: as it comes, short, with zeros at its low end, or sign-extended. */
static uint64_t drawn(void)
{
    uint64_t x = next(), how = next(), by = how >> 2 & 63;
    switch (how & 3) {
    case 0: return x;
    case 1: return x >> by;
    case 2: return x << by;
    default: return (uint64_t)((int64_t)x >> by);
    }
}

static void each(const instruction *i, uint64_t a, uint64_t b);

static void all(const instruction *i)
{
    uint64_t count = i->count ? i->count : edge_count;
    for (size_t n = 0; n < edge_count; n++)
        for (uint64_t m = 0; m < count; m++)
            each(i, edges[n], i->count ? i->first + m : edges[m]);
    seed = i->number;
    for (int n = 0; n < RANDOM; n++) {
        uint64_t a = drawn();
        each(i, a, i->count ? i->first + next() % i->count : drawn());
    }
}

/* Whether this is QEMU 7.2's CTZW of a number whose low word is 0, where the manual says 32: it counts on, to the lowest 1 of all 64 bits. */
static int counts_on(const instruction *i, uint64_t a, uint64_t result)
{
    return i->number == 43 && !(uint32_t)a && a && result > 32 && result == (uint64_t)__builtin_ctzll(a);
}

static uint64_t results[8192];
#define ROOM (sizeof results / sizeof *results)

#ifdef __riscv

/* Each is an instruction and `ret`, which take four bytes each as this is made without C; of an immediate one there are as many as immediates. */
#define CODE(name, text) __asm__(".text\n.balign 4\n" #name ": " text); uint64_t name(uint64_t, uint64_t);
#define TWO(kind, number, mnemonic) CODE(run##kind, mnemonic " a0, a0, a1\nret")
#define ONE(kind, number, mnemonic) CODE(run##kind, mnemonic " a0, a0\nret")
#define IMMEDIATE(kind, number, mnemonic, first, count)                                                                                  \
    CODE(run##kind##Imm, ".set n, " #first "\n.rept " #count "\n" mnemonic " a0, a0, n\nret\n.set n, n + 1\n.endr")
INSTRUCTIONS
#define RUN(name) name

static int few;
static size_t made;

static void send(void)
{
    if (fwrite(results, sizeof *results, made, stdout) != made || fflush(stdout)) {
        perror("outside_alu: writing results");
        exit(2);
    }
    made = 0;
}

static void each(const instruction *i, uint64_t a, uint64_t b)
{
    uintptr_t at = (uintptr_t)i->code + (i->count ? 8 * (b - i->first) : 0);
    uint64_t result = ((uint64_t (*)(uint64_t, uint64_t))at)(a, b);
    if (few) {
        if (!counts_on(i, a, result))
            printf("%s %s %" PRIu64 " %" PRIu64 " %" PRIu64 "\n", i->kind, i->mnemonic, a, b, result);
        return;
    }
    results[made++] = result;
    if (made == ROOM)
        send();
}

static int run(const instruction *table, size_t instructions)
{
    for (const instruction *i = table; i < table + instructions; i++)
        if (few)
            for (uint64_t n = 0; n < SAMPLE * SAMPLE; n++)
                each(i, edges[n / SAMPLE], i->count ? i->first + (i->count - 1) * (n % SAMPLE) / (SAMPLE - 1) : edges[n % SAMPLE]);
        else
            all(i);
    send();
    return 0;
}

#else

#include "unvriscol.h"
#define RUN(name) 0

static size_t held, used;
static uint64_t operations, counted_on, differing;

static void each(const instruction *i, uint64_t a, uint64_t b)
{
    if (used == held) {
        used = 0;
        held = fread(results, sizeof *results, ROOM, stdin);
        if (!held) {
            fprintf(stderr, "outside_alu: the results end at %s\n", i->mnemonic);
            exit(2);
        }
    }
    uint64_t theirs = results[used++];
    uv_answer ours = uv_alu(i->number, a, b);
    operations++;
    if (ours.number == UV_DONE && ours.value == theirs)
        return;
    if (counts_on(i, a, theirs) && ours.number == UV_DONE && ours.value == 32)
        counted_on++;
    else if (differing++ < 5)
        printf("DIFFERS: %s (%s) of 0x%" PRIx64 " and 0x%" PRIx64 ": QEMU 0x%" PRIx64 ", uv_alu 0x%" PRIx64 " with number %" PRIu64 "\n",
               i->kind, i->mnemonic, a, b, theirs, ours.value, ours.number);
}

static int run(const instruction *table, size_t instructions)
{
    uint64_t kinds = 0, sum = 0, faults = 0;
    for (uint64_t number = 0; number < 256; number++) {
        size_t of = 0;
        for (const instruction *i = table; i < table + instructions; i++)
            of += i->number == number;
        if ((of > 0) != (uv_alu(number, 0, 0).number == UV_DONE)) {
            fprintf(stderr, "outside_alu: kind %" PRIu64 " has %zu instructions here, which is not what uv_alu says of it\n", number, of);
            exit(2);
        }
        kinds += of > 0;
    }
    for (const instruction *i = table; i < table + instructions; i++) {
        operations = counted_on = differing = 0;
        all(i);
        printf("%2" PRIu64 " %-8s %-9s %7" PRIu64 " operations: %" PRIu64 " differ", i->number, i->kind, i->mnemonic, operations, differing);
        if (counted_on)
            printf(", and %" PRIu64 " of a low word 0 where QEMU counts on all 64 bits, uv_alu and the manual 32", counted_on);
        printf("\n");
        sum += operations, faults += differing;
    }
    if (used != held || getchar() != EOF) {
        fprintf(stderr, "outside_alu: there are more results than operands\n");
        exit(2);
    }
    printf("%" PRIu64 " kinds, %zu instructions, %" PRIu64 " operations: %" PRIu64 " differ\n", kinds, instructions, sum, faults);
    return faults != 0;
}

#endif

#undef TWO
#undef ONE
#undef IMMEDIATE
#define TWO(kind, number, mnemonic) {#kind, mnemonic, number, 0, 0, RUN(run##kind)},
#define ONE(kind, number, mnemonic) {#kind, mnemonic, number, 0, 0, RUN(run##kind)},
#define IMMEDIATE(kind, number, mnemonic, first, count) {#kind, mnemonic, number, (uint64_t)(first), count, RUN(run##kind##Imm)},

int main(int argc, char **argv)
{
    static const instruction table[] = {INSTRUCTIONS};
    make_edges();
#ifdef __riscv
    few = argc > 1;
#endif
    (void)argc, (void)argv;
    return run(table, sizeof table / sizeof *table);
}
