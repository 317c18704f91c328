/* The header by itself, as C89, as C11 and as C++: it includes what it uses, its structs are laid out as the library's,
 * its numbers are those of documents 01 and 02, and its functions have the library's types and link. The first line
 * includes nothing before it.
 */
#include "ropebonnet.h"

#define HOLDS(name, truth) typedef char name[(truth) ? 1 : -1]

HOLDS(answer_size, sizeof(struct ropebonnet_answer) == 12);
HOLDS(answer_last, offsetof(struct ropebonnet_answer, second) == 8);
HOLDS(part_size, sizeof(struct ropebonnet_part) == 16);
HOLDS(part_last, offsetof(struct ropebonnet_part, length) == 8);
HOLDS(needs_size, sizeof(struct ropebonnet_needs) == 36);
HOLDS(needs_instructions, offsetof(struct ropebonnet_needs, instructions) == 12);
HOLDS(needs_work_words, offsetof(struct ropebonnet_needs, work_words) == 16);
HOLDS(needs_input_words, offsetof(struct ropebonnet_needs, input_words) == 20);
HOLDS(needs_constant_words, offsetof(struct ropebonnet_needs, constant_words) == 24);
HOLDS(needs_outputs, offsetof(struct ropebonnet_needs, outputs) == 28);
HOLDS(needs_memory, offsetof(struct ropebonnet_needs, memory) == 32);

HOLDS(longest_file, ROPEBONNET_LONGEST_FILE == 65536);
HOLDS(longest_listing, ROPEBONNET_LONGEST_LISTING == 4 * 65536);
HOLDS(most_instructions, ROPEBONNET_MOST_INSTRUCTIONS == 1024);
HOLDS(most_inputs, ROPEBONNET_MOST_INPUTS == 4 * 32);
HOLDS(most_constants, ROPEBONNET_MOST_CONSTANTS == 4 * 1024);
HOLDS(register_words, ROPEBONNET_REGISTER_WORDS == 1156);
HOLDS(work_words, ROPEBONNET_WORK_WORDS == 3);
HOLDS(most_memory, ROPEBONNET_MOST_MEMORY == 16384);
HOLDS(outs, ROPEBONNET_OUT(0) == 0 && ROPEBONNET_OUT(31) == 124);
HOLDS(temporaries, ROPEBONNET_TEMP(0) == 128 && ROPEBONNET_TEMP(255) == 1148);
HOLDS(address, ROPEBONNET_ADDR == 1152);
HOLDS(statuses, ROPEBONNET_DONE == 0 && ROPEBONNET_HALTED == 1 && ROPEBONNET_REFUSED == 2);
HOLDS(argument_in_brackets, ROPEBONNET_OUT(1 + 1) == 8 && ROPEBONNET_TEMP(1 + 1) == 136);

/* A parameter of another width, sign or constness does not compile: the library's lengths are of 64 bits. */
static struct ropebonnet_answer (*const check)(const uint8_t *, size_t) = ropebonnet_check;
static struct ropebonnet_answer (*const prepare)(const uint8_t *, size_t, uint32_t *, size_t) = ropebonnet_prepare;
static struct ropebonnet_answer (*const run)(const uint8_t *, size_t, const uint32_t *, size_t, const uint32_t *, size_t,
                                             uint32_t *, size_t, uint32_t *, size_t, uint32_t *, size_t,
                                             uint32_t) = ropebonnet_run;
static struct ropebonnet_part (*const record)(const uint8_t *, size_t, size_t) = ropebonnet_record;
static struct ropebonnet_needs (*const needs)(const uint8_t *, size_t) = ropebonnet_needs;
static struct ropebonnet_answer (*const print)(const uint8_t *, size_t, uint8_t *, size_t) = ropebonnet_print;
static struct ropebonnet_answer (*const read)(const uint8_t *, size_t, uint8_t *, size_t) = ropebonnet_read;
static uint32_t (*const version)(void) = ropebonnet_version;
static uint32_t (*const row_words)(void) = ropebonnet_row_words;

/* Nor does a member of another type. */
static uint32_t sum(const uint32_t *a, const uint32_t *b, const uint32_t *c)
{
    return *a + *b + *c;
}

static size_t end(const size_t *start, const size_t *length)
{
    return *start + *length;
}

/* Case 12 of document 01. */
static const uint8_t program[] = {1, 3, 0, 0, 0, 0, 2, 25, 0, 0, 0, 0, 0, 0, 0, 0, 0,
                                  0, 0, 0, 0, 0, 0, 16, 3, 0, 0, 1, 6, 0, 0, 228, 0, 137};

int main(void)
{
    static uint32_t registers[ROPEBONNET_REGISTER_WORDS];
    uint32_t work[ROPEBONNET_WORK_WORDS * 2];
    uint8_t listing[4 * sizeof program], file[sizeof program];
    struct ropebonnet_answer answer = check(program, sizeof program);
    struct ropebonnet_part part = record(program, sizeof program, 1);
    struct ropebonnet_needs n = needs(program, sizeof program);
    if (sum(&answer.status, &answer.first, &answer.second) != 2 || end(&part.start, &part.length) != 23 ||
        sum(&n.status, &n.first, &n.second) != 2 || sum(&n.instructions, &n.work_words, &n.input_words) != 8 ||
        sum(&n.constant_words, &n.outputs, &n.memory) != 1 ||
        prepare(program, sizeof program, work, 6).first != 2 ||
        print(program, sizeof program, listing, sizeof listing).first != 42 ||
        read(listing, 42, file, sizeof file).first != sizeof file || version() != ROPEBONNET_VERSION ||
        row_words() != ROPEBONNET_WORK_WORDS) {
        return 1;
    }
    answer = run(program, sizeof program, NULL, 0, NULL, 0, registers, ROPEBONNET_REGISTER_WORDS, work, 6, NULL, 0, 2);
    return answer.status != ROPEBONNET_DONE || registers[ROPEBONNET_OUT(0)] != 25;
}
