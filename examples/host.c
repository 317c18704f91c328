/* A host: checks, prepares and runs a program, asks what it needs, prints its listing and reads that back, and meets
 * refusals.
 *
 *     gcc -std=c11 -Wall -Wextra -Werror examples/host.c $(pkg-config --cflags --libs ropebonnet) -o host
 *     gcc -std=c11 -Wall -Wextra -Werror -Iinclude examples/host.c target/staticlib/libropebonnet.a -o host
 *
 * The first way after `make build` and `make install`, the second after `make build` alone.
 */
#include "ropebonnet.h"

#include <stdio.h>

/* MOV OUT[0].x, IMM[0] and END. */
static const uint8_t program[] = {
    0x01, 0x03, 0x00, 0x00, 0x00, 0x00,                         /* declaration: OUT[0] */
    0x02, 0x19, 0, 0, 0, 0, 0, 0, 0, 0, 0, 0, 0, 0, 0, 0, 0,    /* immediate: 25 0 0 0 */
    0x10, 0x03, 0x00, 0x00, 0x01, 0x06, 0x00, 0x00, 0xE4, 0x00, /* MOV OUT[0].x, IMM[0].xyzw */
    0x89,                                                       /* END */
};

static void print_answer(const char *call, struct ropebonnet_answer answer)
{
    switch (answer.status) {
    case ROPEBONNET_DONE:
        printf("%s: done, %u\n", call, (unsigned)answer.first);
        break;
    case ROPEBONNET_HALTED:
        printf("%s: halted after %u steps, next is instruction %u\n", call, (unsigned)answer.first,
               (unsigned)answer.second);
        break;
    default:
        printf("%s: refused with %u at byte %u\n", call, (unsigned)answer.first, (unsigned)answer.second);
        break;
    }
}

/* Whether the library is the one that the header describes. */
static int is_as_described(void)
{
    return ropebonnet_version() == ROPEBONNET_VERSION && ropebonnet_row_words() == ROPEBONNET_WORK_WORDS;
}

static void print_needs(struct ropebonnet_needs needs)
{
    printf("needs: %u instructions, %u working, %u input and %u constant words, outputs %08X, memory %u\n",
           (unsigned)needs.instructions, (unsigned)needs.work_words, (unsigned)needs.input_words,
           (unsigned)needs.constant_words, (unsigned)needs.outputs, (unsigned)needs.memory);
}

/* Runs the program with a budget; the words lent are set up so that what the run changes can be seen. */
static void run(uint32_t budget)
{
    static uint32_t registers[ROPEBONNET_REGISTER_WORDS];
    static uint32_t work[ROPEBONNET_WORK_WORDS * ROPEBONNET_MOST_INSTRUCTIONS];
    registers[ROPEBONNET_OUT(0)] = 77;
    struct ropebonnet_answer answer =
        ropebonnet_run(program, sizeof program, NULL, 0, NULL, 0, registers, ROPEBONNET_REGISTER_WORDS, work,
                       sizeof work / sizeof work[0], NULL, 0, budget);
    printf("budget %u, ", (unsigned)budget);
    print_answer("run", answer);
    printf("  OUT[0].x = %u\n", (unsigned)registers[ROPEBONNET_OUT(0)]);
}

/* Prints the program's listing and reads it back, whole and without its last line feed. */
static void list(void)
{
    uint8_t listing[4 * sizeof program], file[sizeof program];
    struct ropebonnet_answer answer = ropebonnet_print(program, sizeof program, listing, sizeof listing);
    print_answer("print", answer);
    if (answer.status == ROPEBONNET_DONE) {
        fwrite(listing, 1, answer.first, stdout);
        print_answer("read", ropebonnet_read(listing, answer.first, file, sizeof file));
        print_answer("read, cut", ropebonnet_read(listing, answer.first - 1, file, sizeof file));
    }
}

int main(void)
{
    uint32_t table[ROPEBONNET_WORK_WORDS * 2];
    if (!is_as_described()) {
        printf("the library is not the one that the header describes\n");
        return 1;
    }
    print_answer("check", ropebonnet_check(program, sizeof program));
    print_needs(ropebonnet_needs(program, sizeof program));
    print_answer("prepare", ropebonnet_prepare(program, sizeof program, table, sizeof table / sizeof table[0]));
    printf("  table");
    for (size_t i = 0; i < sizeof table / sizeof table[0]; i++) {
        printf(" %u", (unsigned)table[i]);
    }
    printf("\n");

    struct ropebonnet_part part = ropebonnet_record(program, sizeof program, 2);
    printf("record 2: %zu bytes from byte %zu, kind %02X\n", part.length, part.start, program[part.start]);

    for (uint32_t budget = 3; budget-- > 0;) {
        run(budget);
    }
    list();

    /* Without its last byte the file has no END, and five words are too few for two instructions. */
    print_answer("check without END", ropebonnet_check(program, sizeof program - 1));
    print_answer("prepare with five words", ropebonnet_prepare(program, sizeof program, table, 5));
    return 0;
}
