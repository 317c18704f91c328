/* The header's numbers against the library: where registers and memory lie, what a program sees of its constants, what
 * an answer's words are, every size of a budget, what a program needs, where records lie, and the version. What is
 * expected is document 01's.
 */
#include "expect.h"
#include "program.h"

#include <string.h>

enum { OUTS = 32, TEMPS = 256, PAINT = 0x77777777, BUDGET = 1000 };

static uint32_t inputs[ROPEBONNET_MOST_INPUTS];
static uint32_t constants[ROPEBONNET_MOST_CONSTANTS];
static uint32_t registers[ROPEBONNET_REGISTER_WORDS + 1];
static uint32_t work[ROPEBONNET_WORK_WORDS * ROPEBONNET_MOST_INSTRUCTIONS];
static uint32_t memory[ROPEBONNET_MOST_MEMORY];
static uint8_t output[100];
static struct program p;

/* Words that differ from each other and, by their first digit, from those of other buffers. */
static void fill(uint32_t *words, size_t count, uint32_t digit)
{
    for (size_t i = 0; i < count; i++) {
        words[i] = (digit << 28) + (uint32_t)i;
    }
}

static struct ropebonnet_answer run(uint32_t budget)
{
    fill(inputs, ROPEBONNET_MOST_INPUTS, 1);
    fill(constants, ROPEBONNET_MOST_CONSTANTS, 2);
    fill(memory, ROPEBONNET_MOST_MEMORY, 3);
    for (size_t i = 0; i < sizeof registers / 4; i++) {
        registers[i] = PAINT;
    }
    return ropebonnet_run(p.bytes, p.length, inputs, ROPEBONNET_MOST_INPUTS, constants, ROPEBONNET_MOST_CONSTANTS,
                          registers, sizeof registers / 4, work, sizeof work / 4, memory, ROPEBONNET_MOST_MEMORY,
                          budget);
}

static void move(unsigned kind, unsigned file, unsigned index, unsigned from, unsigned from_index)
{
    destination(&p, kind, file, index, XYZW);
    source(&p, from, from_index, TO_XYZW, PLAIN);
}

static int are_words(size_t at, const uint32_t *words)
{
    return memcmp(registers + at, words, 16) == 0;
}

/* "Four words a register: OUT i from word 4i, TEMP i from 128+4i, ADDR from 1152; 1,156 words.": each register gets
 * the words of a constant of its own, from the last one down.
 */
static void registers_lie(void)
{
    p.length = 0;
    declare_all(&p);
    for (unsigned i = 0; i < OUTS; i++) {
        move(MOV, OUT, i, CONST, 1023 - i);
    }
    for (unsigned i = 0; i < TEMPS; i++) {
        move(MOV, TEMP, i, CONST, 1023 - OUTS - i);
    }
    move(UARL, ADDR, 0, CONST, 1023 - OUTS - TEMPS);
    byte(&p, END);
    EXPECT_ANSWER(run(BUDGET), done(OUTS + TEMPS + 2), "a write to every register");
    for (unsigned i = 0; i < OUTS; i++) {
        EXPECT(are_words(ROPEBONNET_OUT(i), constants + 4 * (1023 - i)), "OUT[%u]", i);
    }
    for (unsigned i = 0; i < TEMPS; i++) {
        EXPECT(are_words(ROPEBONNET_TEMP(i), constants + 4 * (1023 - OUTS - i)), "TEMP[%u]", i);
    }
    EXPECT(are_words(ROPEBONNET_ADDR, constants + 4 * (1023 - OUTS - TEMPS)), "ADDR[0]");
    EXPECT(registers[ROPEBONNET_REGISTER_WORDS] == PAINT, "the word past the registers was written");
}

static void inputs_lie(void)
{
    p.length = 0;
    declare_all(&p);
    for (unsigned i = 0; i < OUTS; i++) {
        move(MOV, OUT, i, IN, i);
    }
    byte(&p, END);
    EXPECT_ANSWER(run(BUDGET), done(OUTS + 1), "a read of every input");
    for (unsigned i = 0; i < OUTS; i++) {
        EXPECT(are_words(ROPEBONNET_OUT(i), inputs + 4 * i), "IN[%u]", i);
    }
}

/* "Memory addresses are bytes .. A misaligned or outside word reads 0; its write is dropped." LOAD and STORE of four
 * words from the last but one.
 */
static void memory_lies(void)
{
    enum { LAST = ROPEBONNET_MOST_MEMORY - 1 };
    p.length = 0;
    declare(&p, OUT, 0, 0);
    declare(&p, IN, 0, 31);
    declare(&p, MEM, 0, 0);
    immediate(&p, 4 * (LAST - 1), 0, 0, 0);
    move(LOAD, OUT, 0, IMM, 0);
    destination(&p, STORE, MEM, 0, XYZW);
    source(&p, IMM, 0, TO_XYZW, PLAIN);
    source(&p, IN, 31, TO_XYZW, PLAIN);
    byte(&p, END);
    EXPECT_ANSWER(run(BUDGET), done(3), "the last two words of memory");
    const uint32_t wanted[] = {(3u << 28) + LAST - 1, (3u << 28) + LAST, 0, 0};
    EXPECT(are_words(ROPEBONNET_OUT(0), wanted), "LOAD of the last two words and two outside");
    EXPECT(memory[LAST - 2] == (3u << 28) + LAST - 2 && memory[LAST - 1] == inputs[124] && memory[LAST] == inputs[125],
           "STORE to the last two words");
}

/* "a negative or undeclared sum reads 0": CONST[2] is lent and left out between declared ones. */
static void constants_seen(void)
{
    static const uint32_t sums[] = {2, 3, 4, 0xFFFFFFFFu};
    static const uint32_t zeros[4];
    p.length = 0;
    declare(&p, CONST, 0, 1);
    declare(&p, CONST, 3, 3);
    declare(&p, OUT, 0, 3);
    declare(&p, ADDR, 0, 0);
    for (unsigned i = 0; i < 4; i++) {
        immediate(&p, sums[i], 0, 0, 0);
    }
    for (unsigned i = 0; i < 4; i++) {
        move(UARL, ADDR, 0, IMM, i);
        destination(&p, MOV, OUT, i, XYZW);
        source(&p, CONST, 0, TO_XYZW, BY_ADDR_X);
    }
    byte(&p, END);
    EXPECT_ANSWER(run(BUDGET), done(9), "constants by ADDR");
    for (unsigned i = 0; i < 4; i++) {
        EXPECT(are_words(ROPEBONNET_OUT(i), sums[i] == 3 ? constants + 12 : zeros), "CONST[0] by ADDR of %x", sums[i]);
    }
}

/* Document 01's case 12. */
static void statuses(void)
{
    case_12(&p);
    EXPECT(p.length == 34, "case 12 has %zu bytes", p.length);
    EXPECT_ANSWER(ropebonnet_check(p.bytes, p.length), done(2), "case 12: accepted");
    EXPECT_ANSWER(run(2), done(2), "case 12: budget 2");
    EXPECT(registers[ROPEBONNET_OUT(0)] == 25, "case 12: OUT[0].x is %u", registers[ROPEBONNET_OUT(0)]);
    EXPECT_ANSWER(run(1), halted(1, 1), "case 12: budget 1");
    EXPECT_ANSWER(run(0), halted(0, 0), "case 12: budget 0");
    for (unsigned i = 0; i < ROPEBONNET_REGISTER_WORDS; i++) {
        EXPECT(registers[i] == 0, "case 12: register word %u is not cleared", i);
    }
    memset(work, 0x77, sizeof work);
    EXPECT_ANSWER(ropebonnet_prepare(p.bytes, p.length, work, 7), done(2), "case 12: prepared");
    const uint32_t table[] = {23, 0, 0, 33, 0, 0, PAINT};
    EXPECT(memcmp(work, table, sizeof table) == 0, "case 12: the table");
    EXPECT_ANSWER(ropebonnet_print(p.bytes, p.length, output, sizeof output), done(42), "case 12: printed");
    EXPECT_ANSWER(ropebonnet_read(output, 42, output + 42, sizeof output - 42), done(34), "case 12: read back");
    EXPECT(memcmp(output + 42, p.bytes, 34) == 0, "case 12: another file is read back");
}

/* "A budget is an unsigned 32-bit number." Case 12 ends in 2 steps; a loop without BRK takes all that there are. */
static void budgets(void)
{
    enum { STEPS = 20000001 };
    case_12(&p);
    for (uint32_t budget = 2; budget != 0; budget *= 2) {
        EXPECT_ANSWER(run(budget), done(2), "case 12: budget %u", budget);
    }
    EXPECT_ANSWER(run(UINT32_MAX), done(2), "case 12: the greatest budget");
    EXPECT(registers[ROPEBONNET_OUT(0)] == 25, "case 12, the greatest budget: OUT[0].x");
    p.length = 0;
    byte(&p, BGNLOOP);
    byte(&p, NOP);
    byte(&p, ENDLOOP);
    byte(&p, END);
    EXPECT_ANSWER(run(STEPS), halted(STEPS, 1), "a loop, an odd budget");
    EXPECT_ANSWER(run(STEPS - 1), halted(STEPS - 1, 2), "a loop, an even budget");
}

static void expect_part(size_t length, size_t n, size_t start, size_t part_length)
{
    struct ropebonnet_part part = ropebonnet_record(p.bytes, length, n);
    EXPECT(part.start == start && part.length == part_length, "record %zu of %zu bytes: %zu bytes from %zu", n, length,
           part.length, part.start);
}

static void records(void)
{
    case_12(&p);
    expect_part(34, 0, 0, 6);
    expect_part(34, 1, 6, 17);
    expect_part(34, 2, 23, 10);
    expect_part(34, 3, 33, 1);
    expect_part(34, 4, 34, 0);
    expect_part(32, 2, 32, 0);
    expect_part(0, 0, 0, 0);
    p.length = 0;
    bytes(&p, NOP, ROPEBONNET_LONGEST_FILE + 1);
    expect_part(ROPEBONNET_LONGEST_FILE, ROPEBONNET_LONGEST_FILE - 1, 65535, 1);
    expect_part(ROPEBONNET_LONGEST_FILE, SIZE_MAX, 65536, 0);
    expect_part(ROPEBONNET_LONGEST_FILE + 1, 0, 65537, 0);
}

/* Every kind of the table three times, 267 records; the bytes of bodies are no kind. */
static void records_of_all_kinds(void)
{
    enum { ROUNDS = 3, RECORDS = 267 };
    size_t starts[RECORDS + 1], count = 0;
    p.length = 0;
    for (unsigned i = 0; i < 256 * ROUNDS; i++) {
        if (body(i % 256) != UNKNOWN && count < RECORDS) {
            starts[count++] = p.length;
            byte(&p, i % 256);
            bytes(&p, 0xFF, body(i % 256));
        }
    }
    starts[count] = p.length;
    EXPECT(count == RECORDS, "there are %zu records", count);
    for (size_t n = 0; n < count; n++) {
        expect_part(p.length, n, starts[n], starts[n + 1] - starts[n]);
    }
    expect_part(p.length, count, p.length, 0);
}

static void unknown_records(void)
{
    for (unsigned kind = 0; kind < 256; kind++) {
        if (body(kind) == UNKNOWN) {
            p.length = 0;
            byte(&p, NOP);
            byte(&p, kind);
            bytes(&p, NOP, 30);
            expect_part(p.length, 0, 0, 1);
            expect_part(p.length, 1, p.length, 0);
            expect_part(p.length, 2, p.length, 0);
        }
    }
}

static void expect_needs(struct ropebonnet_needs wanted, const char *what)
{
    struct ropebonnet_needs found = ropebonnet_needs(p.bytes, p.length);
    EXPECT(memcmp(&found, &wanted, sizeof found) == 0,
           "needs of %s: %u %u %u, %u instructions, words: %u work %u input %u constant, outputs %x, memory %u", what,
           found.status, found.first, found.second, found.instructions, found.work_words, found.input_words,
           found.constant_words, found.outputs, found.memory);
}

static struct ropebonnet_answer run_lent(size_t input_words, size_t constant_words, size_t work_words)
{
    return ropebonnet_run(p.bytes, p.length, inputs, input_words, constants, constant_words, registers,
                          ROPEBONNET_REGISTER_WORDS, work, work_words, NULL, 0, BUDGET);
}

/* Declarations that leave out registers: the highest declared one counts for inputs and constants, each for outputs. */
static void some_needs(void)
{
    p.length = 0;
    declare(&p, CONST, 9, 9);
    declare(&p, CONST, 5, 7);
    declare(&p, IN, 3, 3);
    declare(&p, OUT, 0, 0);
    declare(&p, OUT, 31, 31);
    declare(&p, OUT, 2, 3);
    declare(&p, TEMP, 4, 6);
    bytes(&p, NOP, 6);
    byte(&p, END);
    expect_needs((struct ropebonnet_needs){ROPEBONNET_DONE, 7, 0, 7, 21, 16, 40, 0x8000000Du, 0}, "some registers");
    EXPECT_ANSWER(run_lent(16, 40, 21), done(7), "a run lent what it needs");
    EXPECT_ANSWER(run_lent(15, 40, 21), refused(ROPEBONNET_INPUTS_SHORT, 0), "an input word less");
    EXPECT_ANSWER(run_lent(16, 39, 21), refused(ROPEBONNET_CONSTANTS_SHORT, 0), "a constant word less");
    EXPECT_ANSWER(run_lent(16, 40, 20), refused(ROPEBONNET_WORK_SHORT, 0), "a working word less");
}

/* What a program needs that declares one register. */
static void expect_needs_of_one(unsigned file, unsigned index, uint32_t inputs_asked, uint32_t constants_asked,
                                uint32_t outputs)
{
    p.length = 0;
    declare(&p, file, index, index);
    byte(&p, END);
    expect_needs((struct ropebonnet_needs){ROPEBONNET_DONE, 1, 0, 1, 3, inputs_asked, constants_asked, outputs, 0},
                 "one register");
}

static void needs_of_each_register(void)
{
    for (unsigned i = 0; i < 1024; i++) {
        expect_needs_of_one(CONST, i, 0, 4 * (i + 1), 0);
    }
    for (unsigned i = 0; i < 32; i++) {
        expect_needs_of_one(IN, i, 4 * (i + 1), 0, 0);
        expect_needs_of_one(OUT, i, 0, 0, 1u << i);
    }
    for (unsigned i = 0; i < TEMPS; i++) {
        expect_needs_of_one(TEMP, i, 0, 0, 0);
    }
}

static void needs(void)
{
    some_needs();
    needs_of_each_register();
    p.length = 0;
    byte(&p, END);
    expect_needs((struct ropebonnet_needs){ROPEBONNET_DONE, 1, 0, 1, 3, 0, 0, 0, 0}, "END alone");
    p.length = 0;
    declare_all(&p);
    bytes(&p, NOP, ROPEBONNET_MOST_INSTRUCTIONS - 1);
    byte(&p, END);
    expect_needs((struct ropebonnet_needs){ROPEBONNET_DONE, 1024, 0, 1024, ROPEBONNET_WORK_WORDS * 1024,
                                           ROPEBONNET_MOST_INPUTS, ROPEBONNET_MOST_CONSTANTS, 0xFFFFFFFFu, 1},
                 "the most");
    p.length--;
    expect_needs((struct ropebonnet_needs){ROPEBONNET_REFUSED, ROPEBONNET_NO_END, (uint32_t)p.length, 0, 0, 0, 0, 0, 0},
                 "a file without END");
}

int main(void)
{
    registers_lie();
    inputs_lie();
    memory_lies();
    constants_seen();
    statuses();
    budgets();
    records();
    records_of_all_kinds();
    unknown_records();
    needs();
    EXPECT(ropebonnet_version() == ROPEBONNET_VERSION, "the library has version %u", ropebonnet_version());
    EXPECT(ropebonnet_row_words() == ROPEBONNET_WORK_WORDS, "a row has %u words", ropebonnet_row_words());
    return faults != 0;
}
