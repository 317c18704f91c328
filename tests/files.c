/* Every call that is lent a file, with each beginning of a program against a page that cannot be touched, before and
 * after it; with a file of the greatest length; with one that is too long; and with none. What is expected is worked
 * out here by document 01.
 */
#define _DEFAULT_SOURCE
#include "expect.h"
#include "guard.h"
#include "program.h"

enum { INSTRUCTIONS = FAMILIES + 1, BUDGET = 100 };

#define TWO_TO_32 ((size_t)1 << 32)

static struct program p;
static uint32_t inputs[ROPEBONNET_MOST_INPUTS];
static uint32_t constants[ROPEBONNET_MOST_CONSTANTS];
static uint32_t registers[ROPEBONNET_REGISTER_WORDS];
static uint32_t work[ROPEBONNET_WORK_WORDS * INSTRUCTIONS];
static uint32_t memory[16];
static struct listing l;
static uint8_t output[ROPEBONNET_LONGEST_LISTING];

/* A program without jumps: a run carries out each instruction once. */
static void build(void)
{
    p.length = 0;
    declare_all(&p);
    families(&p);
    byte(&p, END);
    list(&l, &p);
}

/* The byte after the records that end within so many bytes of the program. */
static size_t whole_records(size_t length)
{
    size_t at = 0;
    while (at < length && at + 1 + body(p.bytes[at]) <= length) {
        at += 1 + body(p.bytes[at]);
    }
    return at;
}

/* What a beginning of the program is answered. */
static struct ropebonnet_answer answer_of(size_t length)
{
    size_t at = whole_records(length);
    if (at < length) {
        return refused(ROPEBONNET_BODY_PAST_FILE, (uint32_t)at);
    }
    return length < p.length ? refused(ROPEBONNET_NO_END, (uint32_t)length) : done(INSTRUCTIONS);
}

static void expect_answers(const uint8_t *file, size_t length, struct ropebonnet_answer wanted)
{
    EXPECT_ANSWER(ropebonnet_check(file, length), wanted, "check of %zu bytes", length);
    EXPECT_ANSWER(ropebonnet_prepare(file, length, work, sizeof work / 4), wanted, "prepare of %zu bytes", length);
    EXPECT_ANSWER(ropebonnet_run(file, length, inputs, sizeof inputs / 4, constants, sizeof constants / 4, registers,
                                 sizeof registers / 4, work, sizeof work / 4, memory, sizeof memory / 4, BUDGET),
                  wanted, "run of %zu bytes", length);
    struct ropebonnet_needs n = ropebonnet_needs(file, length);
    struct ropebonnet_answer first = {n.status, n.first, n.second};
    EXPECT_ANSWER(first, wanted, "needs of %zu bytes", length);
    EXPECT_ANSWER(ropebonnet_print(file, length, output, sizeof output),
                  wanted.status == ROPEBONNET_DONE ? done((uint32_t)l.length) : wanted, "print of %zu bytes", length);
}

static void expect_part(const uint8_t *file, size_t length, size_t n, size_t start, size_t part_length)
{
    struct ropebonnet_part part = ropebonnet_record(file, length, n);
    EXPECT(part.start == start && part.length == part_length, "record %zu of %zu bytes: %zu bytes from %zu", n, length,
           part.length, part.start);
}

/* Each record of a beginning, and one more. */
static void expect_parts(const uint8_t *file, size_t length)
{
    size_t n = 0, end = whole_records(length);
    for (size_t at = 0; at < end; at += 1 + body(p.bytes[at])) {
        expect_part(file, length, n++, at, 1 + body(p.bytes[at]));
    }
    expect_part(file, length, n, length, 0);
}

static void beginnings(enum side side)
{
    for (size_t length = 0; length <= p.length; length++) {
        struct guarded file = guard(p.bytes, length, side);
        only_read(file);
        expect_answers(file.start, length, answer_of(length));
        expect_parts(file.start, length);
        release(file);
    }
}

static void of_the_greatest_length(enum side side)
{
    p.length = 0;
    bytes(&p, NOP, ROPEBONNET_LONGEST_FILE);
    struct guarded file = guard(p.bytes, p.length, side);
    only_read(file);
    expect_answers(file.start, p.length, refused(ROPEBONNET_TOO_MANY, 1024));
    expect_part(file.start, p.length, p.length - 1, p.length - 1, 1);
    expect_part(file.start, p.length, p.length, p.length, 0);
    release(file);
}

/* "file over 65,536 bytes (place 0, before all else)": here no byte of it can be read. */
static void too_long(size_t length)
{
    struct guarded none = guard("", 0, LAST);
    expect_answers(none.start, length, refused(ROPEBONNET_FILE_TOO_LONG, 0));
    expect_part(none.start, length, 0, length, 0);
    expect_part(none.start, length, 1, length, 0);
    release(none);
}

/* As many rows as there are instructions can be touched, and more working words are lent. */
static void rows_in_pages(size_t length)
{
    struct guarded rows = guard(work, sizeof work, LAST);
    EXPECT_ANSWER(ropebonnet_prepare(p.bytes, p.length, words_of(rows), length), done(INSTRUCTIONS),
                  "prepare, lent %zu words", length);
    EXPECT(slack_stays(rows), "prepare: a byte before the rows was written");
    release(rows);
}

static void no_such_record(void)
{
    expect_part(p.bytes, p.length, TWO_TO_32, p.length, 0);
    expect_part(p.bytes, p.length, TWO_TO_32 + 1, p.length, 0);
}

/* "A pointer whose length is 0 may be any, NULL among them." */
static void of_length_0(void)
{
    expect_answers(NULL, 0, refused(ROPEBONNET_NO_END, 0));
    expect_part(NULL, 0, 0, 0, 0);
    EXPECT_ANSWER(ropebonnet_prepare(p.bytes, p.length, NULL, 0), refused(ROPEBONNET_WORK_SHORT, 0), "no rows");
    p.length = 0;
    byte(&p, END);
    EXPECT_ANSWER(ropebonnet_run(p.bytes, p.length, NULL, 0, NULL, 0, NULL, 0, NULL, 0, NULL, 0, BUDGET),
                  refused(ROPEBONNET_REGISTERS_SHORT, 0), "nothing lent but the file");
}

int main(void)
{
    build();
    beginnings(FIRST);
    beginnings(LAST);
    rows_in_pages(sizeof work / 4);
    rows_in_pages(5000);
    rows_in_pages(TWO_TO_32);
    no_such_record();
    too_long(ROPEBONNET_LONGEST_FILE + 1);
    too_long(TWO_TO_32 + p.length);
    of_length_0();
    of_the_greatest_length(FIRST);
    of_the_greatest_length(LAST);
    return faults != 0;
}
