/* Every refusal, met by a file or by lent words just past its limit, and not met just within it. Numbers, places and
 * what is accepted are document 01's ("Refusals by number"), not taken from the library.
 */
#include "expect.h"
#include "program.h"

#include <string.h>

enum { GUARD = 16, PAINT = 0x5A5A5A5A };

static uint32_t inputs[ROPEBONNET_MOST_INPUTS];
static uint32_t constants[ROPEBONNET_MOST_CONSTANTS];
static uint32_t registers[ROPEBONNET_REGISTER_WORDS + GUARD];
static uint32_t work[ROPEBONNET_WORK_WORDS * ROPEBONNET_MOST_INSTRUCTIONS + GUARD];
static uint32_t memory[ROPEBONNET_MOST_MEMORY + GUARD];
static uint32_t output[ROPEBONNET_LONGEST_LISTING / 4];

struct sizes {
    size_t inputs, constants, registers, work, memory;
};

/* As many words as any program asks for, and as much memory as a run takes. */
static const struct sizes most = {ROPEBONNET_MOST_INPUTS, ROPEBONNET_MOST_CONSTANTS, ROPEBONNET_REGISTER_WORDS,
                                  ROPEBONNET_WORK_WORDS * ROPEBONNET_MOST_INSTRUCTIONS, ROPEBONNET_MOST_MEMORY};

static void paint(uint32_t *words, size_t count)
{
    while (count-- > 0) {
        words[count] = PAINT;
    }
}

static int is_painted(const uint32_t *words, size_t count)
{
    while (count-- > 0) {
        if (words[count] != PAINT) {
            return 0;
        }
    }
    return 1;
}

static void paint_all(void)
{
    paint(registers, sizeof registers / 4);
    paint(work, sizeof work / 4);
    paint(memory, sizeof memory / 4);
    paint(output, sizeof output / 4);
}

static int all_painted(void)
{
    return is_painted(registers, sizeof registers / 4) && is_painted(work, sizeof work / 4) &&
           is_painted(memory, sizeof memory / 4) && is_painted(output, sizeof output / 4);
}

static struct ropebonnet_answer run(const struct program *p, struct sizes s, uint32_t budget)
{
    paint_all();
    return ropebonnet_run(p->bytes, p->length, inputs, s.inputs, constants, s.constants, registers, s.registers, work,
                          s.work, memory, s.memory, budget);
}

static struct ropebonnet_answer prepare(const struct program *p, size_t work_length)
{
    paint_all();
    return ropebonnet_prepare(p->bytes, p->length, work, work_length);
}

static struct ropebonnet_answer print(const struct program *p)
{
    paint_all();
    return ropebonnet_print(p->bytes, p->length, (uint8_t *)output, sizeof output);
}

static struct ropebonnet_answer read(const struct listing *l)
{
    paint_all();
    return ropebonnet_read(l->text, l->length, (uint8_t *)output, sizeof output);
}

/* A refusal of a file: how to make one that is just past the limit (past = 1) or just within it (past = 0), and what
 * checking both answers.
 */
struct refusal {
    uint32_t macro;
    uint32_t number;
    const char *words;
    void (*build)(struct program *p, unsigned past);
    struct ropebonnet_answer within;
    uint32_t place;
};

static void nops_to_the_limit(struct program *p, unsigned past)
{
    bytes(p, NOP, 65536 + past);
}

static void end_then_bytes(struct program *p, unsigned past)
{
    byte(p, END);
    bytes(p, NOP, past);
}

static void last_kind_of_its_row(struct program *p, unsigned past)
{
    byte(p, NOP);
    byte(p, 0x89 + past);
}

static void immediate_less_bytes(struct program *p, unsigned past)
{
    immediate(p, 1, 2, 3, 4);
    p->length -= past;
}

static void declaration_and_nop(struct program *p, unsigned past)
{
    bytes(p, NOP, past);
    declare(p, TEMP, 0, 0);
    bytes(p, NOP, 1 - past);
    byte(p, END);
}

static void immediate_and_nop(struct program *p, unsigned past)
{
    bytes(p, NOP, past);
    immediate(p, 1, 2, 3, 4);
    bytes(p, NOP, 1 - past);
    byte(p, END);
}

static void many_instructions(struct program *p, unsigned past)
{
    bytes(p, NOP, 1023 + past);
    byte(p, END);
}

static void many_immediates(struct program *p, unsigned past)
{
    for (unsigned i = 0; i < 256 + past; i++) {
        immediate(p, i, i, i, i);
    }
    byte(p, END);
}

static void last_constant(struct program *p, unsigned past)
{
    declare(p, CONST, 0, 1023 + past);
    byte(p, END);
}

static void last_input(struct program *p, unsigned past)
{
    declare(p, IN, 0, 31 + past);
    byte(p, END);
}

static void last_output(struct program *p, unsigned past)
{
    declare(p, OUT, 0, 31 + past);
    byte(p, END);
}

static void last_temporary(struct program *p, unsigned past)
{
    declare(p, TEMP, 0, 255 + past);
    byte(p, END);
}

static void last_mask(struct program *p, unsigned past)
{
    declare(p, OUT, 0, 0);
    immediate(p, 1, 2, 3, 4);
    destination(p, MOV, OUT, 0, XYZW + past);
    source(p, IMM, 0, TO_XYZW, PLAIN);
    byte(p, END);
}

static void second_declaration(struct program *p, unsigned past)
{
    declare(p, TEMP, 0, 3);
    declare(p, TEMP, 4 - past, 7);
    byte(p, END);
}

static void undeclared_output(struct program *p, unsigned past)
{
    declare(p, OUT, 0, 0);
    immediate(p, 1, 2, 3, 4);
    destination(p, MOV, OUT, past, X);
    source(p, IMM, 0, TO_XYZW, PLAIN);
    byte(p, END);
}

static void missing_immediate(struct program *p, unsigned past)
{
    declare(p, OUT, 0, 0);
    immediate(p, 1, 2, 3, 4);
    destination(p, MOV, OUT, 0, X);
    source(p, IMM, past, TO_XYZW, PLAIN);
    byte(p, END);
}

static void loop_and_mark(struct program *p, unsigned past)
{
    byte(p, BGNLOOP);
    byte(p, past ? ENDIF : ENDLOOP);
    byte(p, END);
}

static void equal_cases(struct program *p, unsigned past)
{
    immediate(p, 1, 2, 3, 4);
    control(p, SWITCH, 0, TO_XXXX);
    control(p, CASE, 0, TO_XXXX);
    control(p, CASE, 0, past ? TO_XXXX : TO_YYYY);
    byte(p, ENDSWITCH);
    byte(p, END);
}

static void open_blocks(struct program *p, unsigned past)
{
    bytes(p, BGNLOOP, 16 + past);
    bytes(p, ENDLOOP, 16 + past);
    byte(p, END);
}

static void nop_and_end(struct program *p, unsigned past)
{
    byte(p, NOP);
    bytes(p, END, 1 - past);
}

#define DONE(n) {ROPEBONNET_DONE, n, 0}
#define REFUSED(n, place) {ROPEBONNET_REFUSED, n, place}

/* No file of 65,536 bytes is a program: of so many NOPs the 1,025th is refused. Nor is a file that ends with the body
 * of a record that is no END.
 */
static const struct refusal refusals[] = {
    {ROPEBONNET_FILE_TOO_LONG, 1, "file over 65,536 bytes", nops_to_the_limit, REFUSED(6, 1024), 0},
    {ROPEBONNET_BYTE_AFTER_END, 2, "a byte follows END", end_then_bytes, DONE(1), 1},
    {ROPEBONNET_UNKNOWN_KIND, 3, "unknown kind", last_kind_of_its_row, DONE(2), 1},
    {ROPEBONNET_BODY_PAST_FILE, 4, "body runs past the file", immediate_less_bytes, REFUSED(13, 17), 0},
    {ROPEBONNET_DECLARATION_TOO_LATE, 5, "declaration after an instruction", declaration_and_nop, DONE(2), 1},
    {ROPEBONNET_DECLARATION_TOO_LATE, 5, "immediate after an instruction", immediate_and_nop, DONE(2), 1},
    {ROPEBONNET_TOO_MANY, 6, "1,025th instruction", many_instructions, DONE(1024), 1024},
    {ROPEBONNET_TOO_MANY, 6, "257th immediate", many_immediates, DONE(1), 256 * 17},
    {ROPEBONNET_FIELD_RULE_BROKEN, 7, "CONST 0-1023", last_constant, DONE(1), 0},
    {ROPEBONNET_FIELD_RULE_BROKEN, 7, "IN 0-31", last_input, DONE(1), 0},
    {ROPEBONNET_FIELD_RULE_BROKEN, 7, "OUT 0-31", last_output, DONE(1), 0},
    {ROPEBONNET_FIELD_RULE_BROKEN, 7, "TEMP 0-255", last_temporary, DONE(1), 0},
    {ROPEBONNET_FIELD_RULE_BROKEN, 7, "mask 1-15", last_mask, DONE(2), 23},
    {ROPEBONNET_DECLARATION_OVERLAPS, 8, "declaration overlaps an earlier one", second_declaration, DONE(1), 6},
    {ROPEBONNET_NOT_DECLARED, 9, "direct operand not declared", undeclared_output, DONE(2), 23},
    {ROPEBONNET_NOT_DECLARED, 9, "no such immediate", missing_immediate, DONE(2), 23},
    {ROPEBONNET_NESTING_BROKEN, 10, "nesting broken", loop_and_mark, DONE(3), 1},
    {ROPEBONNET_SWITCH_RULE_BROKEN, 11, "equal CASE values", equal_cases, DONE(5), 29},
    {ROPEBONNET_TOO_DEEP, 12, "a 17th open block", open_blocks, DONE(33), 16},
    {ROPEBONNET_NO_END, 13, "file ends without END", nop_and_end, DONE(2), 1},
};

/* What print answers of a file, and read of its listing, if it has one: "the read program's own". */
static void answers_of_listings(const struct program *p, const char *words, struct ropebonnet_answer wanted)
{
    static struct listing l;
    int accepted = wanted.status == ROPEBONNET_DONE;
    size_t listed = list(&l, p);
    EXPECT_ANSWER(print(p), accepted ? done((uint32_t)l.length) : wanted, "print: %s", words);
    EXPECT(accepted || all_painted(), "print: %s: refused, and a lent word changed", words);
    if (listed == p->length) {
        EXPECT_ANSWER(read(&l), accepted ? done((uint32_t)p->length) : wanted, "read: %s", words);
        EXPECT(accepted || all_painted(), "read: %s: refused, and a lent word changed", words);
    }
}

/* What all calls but record answer of a file that is lent enough. */
static void answers(const struct program *p, const char *words, struct ropebonnet_answer wanted)
{
    answers_of_listings(p, words, wanted);
    int accepted = wanted.status == ROPEBONNET_DONE;
    EXPECT_ANSWER(ropebonnet_check(p->bytes, p->length), wanted, "check: %s", words);
    EXPECT_ANSWER(prepare(p, most.work), wanted, "prepare: %s", words);
    EXPECT(accepted || all_painted(), "prepare: %s: refused, and a lent word changed", words);
    EXPECT_ANSWER(run(p, most, 0), accepted ? halted(0, 0) : wanted, "run: %s", words);
    EXPECT(accepted || all_painted(), "run: %s: refused, and a lent word changed", words);

    struct ropebonnet_needs n = ropebonnet_needs(p->bytes, p->length);
    struct ropebonnet_answer first = {n.status, n.first, n.second};
    EXPECT_ANSWER(first, wanted, "needs: %s", words);
    EXPECT(accepted || (n.instructions | n.work_words | n.input_words | n.constant_words | n.outputs | n.memory) == 0,
           "needs: %s: refused, and a number is not 0", words);
}

static void refusals_of_files(void)
{
    static struct program p;
    for (size_t i = 0; i < sizeof refusals / sizeof refusals[0]; i++) {
        const struct refusal *r = &refusals[i];
        EXPECT(r->macro == r->number, "the header has %u for: %s", r->macro, r->words);
        p.length = 0;
        r->build(&p, 0);
        answers(&p, r->words, r->within);
        p.length = 0;
        r->build(&p, 1);
        answers(&p, r->words, refused(r->number, r->place));
    }
}

/* A refusal of what is lent: the sizes just past its limit, all others just within theirs. */
struct lending {
    uint32_t macro;
    uint32_t number;
    const char *words;
    struct sizes past;
};

static const struct lending lendings[] = {
    {ROPEBONNET_INPUTS_SHORT, 20, "inputs", {127, 4096, 1156, 3072, 16384}},
    {ROPEBONNET_CONSTANTS_SHORT, 21, "constants", {128, 4095, 1156, 3072, 16384}},
    {ROPEBONNET_REGISTERS_SHORT, 22, "registers", {128, 4096, 1155, 3072, 16384}},
    {ROPEBONNET_WORK_SHORT, 23, "working words", {128, 4096, 1156, 3071, 16384}},
    {ROPEBONNET_MEMORY_TOO_LONG, 24, "memory", {128, 4096, 1156, 3072, 16385}},
};

/* "after all above, in order": with all limits from the i-th on passed, the i-th is given. */
static const struct sizes in_order[] = {
    {127, 4095, 1155, 3071, 16385}, {128, 4095, 1155, 3071, 16385}, {128, 4096, 1155, 3071, 16385},
    {128, 4096, 1156, 3071, 16385}, {128, 4096, 1156, 3072, 16385},
};

static void refusals_of_lent_words(void)
{
    static struct program p;
    p.length = 0;
    declare_all(&p);
    many_instructions(&p, 0);
    EXPECT_ANSWER(run(&p, most, 1024), done(1024), "run: all that any program asks for is lent");
    EXPECT(is_painted(registers + most.registers, GUARD) && is_painted(work + most.work, GUARD) &&
               is_painted(memory, sizeof memory / 4),
           "run: a word that is not the run's was written");
    for (size_t i = 0; i < sizeof lendings / sizeof lendings[0]; i++) {
        const struct lending *l = &lendings[i];
        EXPECT(l->macro == l->number, "the header has %u for: %s", l->macro, l->words);
        EXPECT_ANSWER(run(&p, l->past, 1024), refused(l->number, 0), "run: %s", l->words);
        EXPECT(all_painted(), "run: %s: refused, and a lent word changed", l->words);
        EXPECT_ANSWER(run(&p, in_order[i], 1024), refused(l->number, 0), "run, in order: %s", l->words);
    }
    EXPECT_ANSWER(prepare(&p, 3072), done(1024), "prepare: just enough working words");
    EXPECT(is_painted(work + 3072, GUARD), "prepare: words past the last row stay");
    EXPECT_ANSWER(prepare(&p, 3071), refused(23, 0), "prepare: one working word short");
    EXPECT(all_painted(), "prepare: refused, and a lent word changed");
}

int main(void)
{
    refusals_of_files();
    refusals_of_lent_words();
    return faults != 0;
}
