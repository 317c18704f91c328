/* A host that lends different words in every buffer, by a program that reads inputs, constants, an immediate and memory
 * and writes OUT, TEMP, ADDR and memory. Each word that the run leaves is worked out here by document 01. Buffers lie
 * between pages that cannot be touched, what is only read cannot be written, lengths are up to 2^32 words and more; and
 * two arguments exchanged give another result.
 */
#define _DEFAULT_SOURCE
#include "expect.h"
#include "guard.h"
#include "program.h"

enum { INPUTS, CONSTANTS, REGISTERS, WORK, MEMORY, BUFFERS };
enum { ROOM = 4100, STEPS = 8, BUDGET = 100 };

#define TWO_TO_32 ((size_t)1 << 32)

static const char *const names[BUFFERS] = {"inputs", "constants", "registers", "work", "memory"};

/* What the program asks for, not a word more. */
static const size_t exact[BUFFERS] = {8, 12, ROPEBONNET_REGISTER_WORDS, 3 * STEPS, 13};

/* The words of all buffers, and what a run answers. */
struct words {
    uint32_t of[BUFFERS][ROOM];
    struct ropebonnet_answer answer;
};

static struct program p;

static void operand(unsigned file, unsigned index, unsigned swizzle)
{
    source(&p, file, index, swizzle, PLAIN);
}

static void build(void)
{
    declare(&p, CONST, 0, 2);
    declare(&p, IN, 0, 1);
    declare(&p, OUT, 0, 1);
    declare(&p, TEMP, 0, 1);
    declare(&p, ADDR, 0, 0);
    declare(&p, MEM, 0, 0);
    immediate(&p, 8, 32, 48, 0);
    destination(&p, UARL, ADDR, 0, XYZW), operand(IN, 1, TO_WWWW);
    destination(&p, UADD, TEMP, 0, XYZW), operand(IN, 0, TO_XYZW), source(&p, CONST, 1, TO_XYZW, BY_ADDR_X);
    destination(&p, LOAD, TEMP, 1, XYZW), operand(IMM, 0, TO_XXXX);
    destination(&p, UADD, OUT, 0, XYZW), operand(TEMP, 0, TO_XYZW), operand(TEMP, 1, TO_XYZW);
    destination(&p, MOV, OUT, 1, X | Z), operand(CONST, 0, TO_XYZW);
    destination(&p, STORE, MEM, 0, X | Y | W), operand(IMM, 0, TO_YYYY), operand(TEMP, 0, TO_XYZW);
    destination(&p, ATOMUADD, OUT, 1, W), operand(IMM, 0, TO_ZZZZ), operand(IN, 1, TO_XXXX);
    byte(&p, END);
}

/* Words that differ from each other and from those of every other buffer. IN[1].w is the number that ADDR gets. */
static void fill(struct words *w)
{
    for (uint32_t b = 0; b < BUFFERS; b++) {
        for (uint32_t i = 0; i < ROOM; i++) {
            w->of[b][i] = ((b + 1) << 28) + 0x10001 * (i + 1);
        }
    }
    w->of[INPUTS][7] = 1;
}

/* What the run leaves, instruction by instruction. */
static void expected(struct words *w)
{
    static const uint32_t places[STEPS] = {53, 63, 78, 88, 103, 113, 128, 143};
    const uint32_t *in = w->of[INPUTS], *constants = w->of[CONSTANTS];
    uint32_t *registers = w->of[REGISTERS], *memory = w->of[MEMORY];
    uint32_t *out = registers + 0, *temp = registers + 128, *addr = registers + 1152;
    memset(registers, 0, 4 * 1156);
    for (unsigned c = 0; c < 4; c++) {
        addr[c] = in[7];
        temp[c] = in[c] + constants[4 * (1 + in[7]) + c];
        temp[4 + c] = memory[2 + c];
        out[c] = temp[c] + temp[4 + c];
    }
    out[4] = constants[0];
    out[6] = constants[2];
    memory[8] = temp[0];
    memory[9] = temp[1];
    memory[11] = temp[3];
    out[7] = memory[12];
    memory[12] += in[4];
    for (unsigned i = 0; i < STEPS; i++) {
        w->of[WORK][3 * i] = places[i];
        w->of[WORK][3 * i + 1] = w->of[WORK][3 * i + 2] = 0;
    }
    w->answer = done(STEPS);
}

static struct ropebonnet_answer call(const uint8_t *file, uint32_t *const lent[BUFFERS], const size_t lengths[BUFFERS])
{
    return ropebonnet_run(file, p.length, lent[INPUTS], lengths[INPUTS], lent[CONSTANTS], lengths[CONSTANTS],
                          lent[REGISTERS], lengths[REGISTERS], lent[WORK], lengths[WORK], lent[MEMORY],
                          lengths[MEMORY], BUDGET);
}

static void expect_words(const struct words *found, const struct words *wanted, const char *what)
{
    EXPECT_ANSWER(found->answer, wanted->answer, "%s", what);
    for (unsigned b = 0; b < BUFFERS; b++) {
        for (unsigned i = 0; i < ROOM; i++) {
            EXPECT(found->of[b][i] == wanted->of[b][i], "%s: %s word %u is %x, not %x", what, names[b], i,
                   found->of[b][i], wanted->of[b][i]);
        }
    }
}

static struct words found, wanted;

static void as_expected(void)
{
    uint32_t *const lent[BUFFERS] = {found.of[0], found.of[1], found.of[2], found.of[3], found.of[4]};
    fill(&found);
    found.answer = call(p.bytes, lent, exact);
    expect_words(&found, &wanted, "lent what is asked for");

    static const size_t more[BUFFERS] = {ROOM, ROOM, ROOM, ROOM, ROOM};
    fill(&found);
    found.answer = call(p.bytes, lent, more);
    expect_words(&found, &wanted, "lent more");
}

/* A run with two pointers, two lengths or both exchanged; all buffers have room for the greatest length. */
static void exchanged(unsigned a, unsigned b, int pointers, int lengths, const size_t of[BUFFERS])
{
    uint32_t *lent[BUFFERS] = {found.of[0], found.of[1], found.of[2], found.of[3], found.of[4]};
    size_t length[BUFFERS];
    memcpy(length, of, sizeof length);
    fill(&found);
    if (pointers) {
        lent[a] = found.of[b];
        lent[b] = found.of[a];
    }
    if (lengths) {
        length[a] = of[b];
        length[b] = of[a];
    }
    found.answer = call(p.bytes, lent, length);
    EXPECT(memcmp(&found, &wanted, sizeof found) != 0, "%s and %s exchanged (%s%s) give the same", names[a], names[b],
           pointers ? "pointers " : "", lengths ? "lengths" : "");
}

static void all_exchanges(void)
{
    static const size_t same[BUFFERS] = {ROOM, ROOM, ROOM, ROOM, ROOM};
    for (unsigned a = 0; a < BUFFERS; a++) {
        for (unsigned b = a + 1; b < BUFFERS; b++) {
            exchanged(a, b, 1, 0, same);
            exchanged(a, b, 0, 1, exact);
            exchanged(a, b, 1, 1, exact);
        }
    }
}

/* A run with every buffer in pages of its own: `mapped` words of each can be touched, and `lengths` are lent. */
static void in_pages(const size_t mapped[BUFFERS], const size_t lengths[BUFFERS], enum side side,
                     const struct words *after, const char *what)
{
    uint32_t *lent[BUFFERS];
    struct guarded file = guard(p.bytes, p.length, side), buffers[BUFFERS];
    fill(&found);
    for (unsigned b = 0; b < BUFFERS; b++) {
        buffers[b] = guard(found.of[b], 4 * mapped[b], side);
        lent[b] = words_of(buffers[b]);
    }
    only_read(file);
    only_read(buffers[INPUTS]);
    only_read(buffers[CONSTANTS]);
    found.answer = call(file.start, lent, lengths);
    for (unsigned b = 0; b < BUFFERS; b++) {
        EXPECT(slack_stays(buffers[b]), "%s: a byte beside %s was written", what, names[b]);
        memcpy(found.of[b], lent[b], 4 * mapped[b]);
        release(buffers[b]);
    }
    release(file);
    expect_words(&found, after, what);
}

/* Of buffers that are longer than can be used, no word past these is touched: up to 128 inputs and 4,096 constants,
 * 1,156 register words and the rows. So far more can be lent here than there is, also a length that is 0 in its lower
 * 32 bits.
 */
static void longer_than_used(size_t length)
{
    static const size_t used[BUFFERS] = {ROPEBONNET_MOST_INPUTS, ROPEBONNET_MOST_CONSTANTS, ROPEBONNET_REGISTER_WORDS,
                                         3 * STEPS, 13};
    const size_t lengths[BUFFERS] = {length, length, length, length, 13};
    in_pages(used, lengths, LAST, &wanted, length == 5000 ? "lent 5,000 words" : "lent 2^32 words");
}

static void memory_too_long(size_t length)
{
    static struct words same;
    size_t lengths[BUFFERS];
    memcpy(lengths, exact, sizeof lengths);
    lengths[MEMORY] = length;
    fill(&same);
    same.answer = refused(ROPEBONNET_MEMORY_TOO_LONG, 0);
    in_pages(exact, lengths, LAST, &same, "memory of 2^32 words and more");
}

/* A file may start at any byte, words at any multiple of four. */
static void aligned_otherwise(void)
{
    static _Alignas(64) uint8_t file[ROPEBONNET_LONGEST_FILE];
    static _Alignas(64) uint32_t room[BUFFERS][ROOM + 16];
    for (unsigned offset = 0; offset < 16; offset++) {
        uint32_t *lent[BUFFERS];
        fill(&found);
        memcpy(file + offset, p.bytes, p.length);
        for (unsigned b = 0; b < BUFFERS; b++) {
            lent[b] = room[b] + (offset + 3 * b) % 16;
            memcpy(lent[b], found.of[b], sizeof found.of[b]);
        }
        found.answer = call(file + offset, lent, exact);
        for (unsigned b = 0; b < BUFFERS; b++) {
            memcpy(found.of[b], lent[b], sizeof found.of[b]);
        }
        expect_words(&found, &wanted, "aligned otherwise");
    }
}

/* Buffers that are only read may overlap: here inputs and constants are one. */
static void read_twice(void)
{
    static struct words one;
    uint32_t *const lent[BUFFERS] = {found.of[0], found.of[0], found.of[2], found.of[3], found.of[4]};
    fill(&one);
    memcpy(one.of[CONSTANTS], one.of[INPUTS], sizeof one.of[INPUTS]);
    found = one;
    expected(&one);
    found.answer = call(p.bytes, lent, exact);
    expect_words(&found, &one, "inputs and constants in one buffer");
}

int main(void)
{
    build();
    fill(&wanted);
    expected(&wanted);
    as_expected();
    all_exchanges();
    in_pages(exact, exact, FIRST, &wanted, "against the first page");
    in_pages(exact, exact, LAST, &wanted, "against the last page");
    longer_than_used(5000);
    longer_than_used(TWO_TO_32);
    memory_too_long(TWO_TO_32);
    memory_too_long(TWO_TO_32 + 13);
    aligned_otherwise();
    read_twice();
    return faults != 0;
}
