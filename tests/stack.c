/* The header's bytes of stack. Each call is made on a stack of its own that was painted before, with programs that take
 * much: what lies between the caller's stack pointer and the lowest byte that changed was taken. A call that takes more
 * than the header says fails, and so does a figure that leaves less than a sixteenth of it to spare or is over twice as
 * much. Then each call is made again on a stack of so many bytes with a page below it that cannot be touched.
 *
 * Linked with -z now: looking up memcpy at its first call is not the library's.
 */
#define _DEFAULT_SOURCE
#include "expect.h"
#include "program.h"

#include <stdlib.h>
#include <string.h>
#include <sys/mman.h>

enum { PAGE = 4096, ROOM = 64 * PAGE, BUDGET = 20000 };

static struct program p;
static uint32_t inputs[ROPEBONNET_MOST_INPUTS], constants[ROPEBONNET_MOST_CONSTANTS];
static uint32_t registers[ROPEBONNET_REGISTER_WORDS];
static uint32_t work[ROPEBONNET_WORK_WORDS * ROPEBONNET_MOST_INSTRUCTIONS];
static uint32_t memory[ROPEBONNET_MOST_MEMORY];
static struct listing l;
static uint8_t output[ROPEBONNET_LONGEST_LISTING];

/* What is lent besides a file or its listing: enough, or too little of registers, of work or of the output. */
static size_t register_words, work_words, output_bytes;

/* The caller's stack pointer. What the compiler pushes for a call after it was asked counts as taken by the call. */
static uint8_t *pointer;
static struct ropebonnet_answer answer;

#define HERE() __asm__ volatile("mov %%rsp, %0" : "=m"(pointer))

static void checks(void)
{
    HERE();
    answer = ropebonnet_check(p.bytes, p.length);
}

static void needs(void)
{
    HERE();
    struct ropebonnet_needs n = ropebonnet_needs(p.bytes, p.length);
    answer = (struct ropebonnet_answer){n.status, n.first, n.second};
}

static void prepares(void)
{
    HERE();
    answer = ropebonnet_prepare(p.bytes, p.length, work, work_words);
}

static void runs(void)
{
    HERE();
    answer = ropebonnet_run(p.bytes, p.length, inputs, ROPEBONNET_MOST_INPUTS, constants, ROPEBONNET_MOST_CONSTANTS,
                            registers, register_words, work, work_words, memory, ROPEBONNET_MOST_MEMORY, BUDGET);
}

static void records(void)
{
    HERE();
    answer.first = (uint32_t)ropebonnet_record(p.bytes, p.length, 100).length;
}

static void prints(void)
{
    HERE();
    answer = ropebonnet_print(p.bytes, p.length, output, output_bytes);
}

static void reads(void)
{
    HERE();
    answer = ropebonnet_read(l.text, l.length, output, output_bytes);
}

struct figure {
    const char *name;
    void (*call)(void);
    size_t bytes;
};

static const struct figure figures[] = {
    {"check", checks, ROPEBONNET_CHECK_STACK},       {"needs", needs, ROPEBONNET_NEEDS_STACK},
    {"prepare", prepares, ROPEBONNET_PREPARE_STACK}, {"run", runs, ROPEBONNET_RUN_STACK},
    {"record", records, ROPEBONNET_RECORD_STACK},    {"print", prints, ROPEBONNET_PRINT_STACK},
    {"read", reads, ROPEBONNET_READ_STACK},
};

/* Blocks that are as deep as can be, of one sort, around an instruction of every family. */
static void open_block(enum kind kind)
{
    if (kind == BGNLOOP) {
        byte(&p, BGNLOOP);
    } else {
        control(&p, kind, 0, TO_XXXX);
    }
    if (kind == SWITCH) {
        control(&p, CASE, 0, TO_XXXX);
    }
}

static void close_block(enum kind kind, int second_part)
{
    if (kind == UIF && second_part) {
        byte(&p, ELSE);
    }
    if (kind == SWITCH) {
        byte(&p, DEFAULT);
    }
    if (kind == BGNLOOP) {
        byte(&p, BRK);
    }
    byte(&p, kind == UIF ? ENDIF : kind == SWITCH ? ENDSWITCH : ENDLOOP);
}

static void nested(enum kind outer, enum kind inner, int second_part)
{
    declare_all(&p);
    for (unsigned i = 0; i < 16; i++) {
        open_block(i < 15 ? outer : inner);
    }
    families(&p);
    for (unsigned i = 16; i-- > 0;) {
        close_block(i < 15 ? outer : inner, second_part);
    }
    byte(&p, END);
}

static void smallest(void)
{
    byte(&p, END);
}

static void many_cases(void)
{
    declare_all(&p);
    for (uint32_t i = 1; i < 250; i++) {
        immediate(&p, 16 * i + 4, 16 * i + 5, 16 * i + 6, 16 * i + 7);
    }
    control(&p, SWITCH, 249, TO_WWWW);
    for (unsigned i = 0; i < 4 * 249; i++) {
        control(&p, CASE, i / 4 + 1, i % 4 * TO_YYYY);
    }
    byte(&p, ENDSWITCH);
    byte(&p, END);
}

static void most_digits(void)
{
    immediate(&p, UINT32_MAX, UINT32_MAX, UINT32_MAX, UINT32_MAX);
    byte(&p, END);
}

static void most_bytes(void)
{
    largest(&p);
}

static void longest_run(void)
{
    declare_all(&p);
    byte(&p, BGNLOOP);
    for (unsigned i = 0; i < 80; i++) {
        families(&p);
    }
    byte(&p, ENDLOOP);
    byte(&p, END);
}

static void too_long(void)
{
    bytes(&p, NOP, ROPEBONNET_LONGEST_FILE + 1);
}

static void too_many(void)
{
    bytes(&p, NOP, ROPEBONNET_LONGEST_FILE);
}

static void without_end(void)
{
    largest(&p);
    p.length--;
}

static void too_deep(void)
{
    bytes(&p, BGNLOOP, 17);
}

static void loops(void)
{
    nested(BGNLOOP, BGNLOOP, 0);
}

static void conditions(void)
{
    nested(UIF, UIF, 1);
}

static void switches(void)
{
    nested(SWITCH, SWITCH, 0);
}

static void switch_in_conditions(void)
{
    nested(UIF, SWITCH, 0);
}

static void empty(void)
{
}

struct sort {
    const char *name;
    void (*build)(void);
    uint32_t refusal;
};

static const struct sort sorts[] = {
    {"the smallest", smallest, 0},
    {"16 loops", loops, 0},
    {"16 UIFs with ELSE", conditions, 0},
    {"16 SWITCHes", switches, 0},
    {"a SWITCH in 15 UIFs", switch_in_conditions, 0},
    {"996 CASEs", many_cases, 0},
    {"numbers of ten digits", most_digits, 0},
    {"the largest", most_bytes, 0},
    {"the longest run", longest_run, 0},
    {"an empty file", empty, ROPEBONNET_NO_END},
    {"a file too long", too_long, ROPEBONNET_FILE_TOO_LONG},
    {"too many instructions", too_many, ROPEBONNET_TOO_MANY},
    {"no END", without_end, ROPEBONNET_NO_END},
    {"17 loops", too_deep, ROPEBONNET_TOO_DEEP},
};

/* Calls a function on another stack. */
void on_stack(uint8_t *top, void (*call)(void));
__asm__(".text\n"
        ".globl on_stack\n"
        ".type on_stack, @function\n"
        "on_stack:\n"
        "    push %rbp\n"
        "    mov %rsp, %rbp\n"
        "    mov %rdi, %rsp\n"
        "    call *%rsi\n"
        "    mov %rbp, %rsp\n"
        "    pop %rbp\n"
        "    ret\n"
        ".size on_stack, .-on_stack\n");

/* The bytes that a call takes of a stack painted with a byte. */
static size_t taken(uint8_t *stack, int paint, void (*call)(void))
{
    memset(stack, paint, ROOM);
    on_stack(stack + ROOM, call);
    uint8_t *low = stack;
    while (*low == paint) {
        low++;
    }
    return (size_t)(pointer - low);
}

/* The same with two paints, since a call may write the byte that a stack is painted with. */
static size_t taken_at_most(uint8_t *stack, void (*call)(void))
{
    size_t a = taken(stack, 0xA5, call), b = taken(stack, 0x5A, call);
    return a > b ? a : b;
}

static void build(const struct sort *s)
{
    p.length = 0;
    s->build();
    list(&l, &p);
}

static void lend(size_t least_registers, size_t least_work, size_t least_output)
{
    register_words = least_registers;
    work_words = least_work;
    output_bytes = least_output;
}

static void expect_status(const struct sort *s, const struct figure *f)
{
    if (f->call == records) {
        return;
    }
    uint32_t refusal = answer.status == ROPEBONNET_REFUSED ? answer.first : 0;
    EXPECT(refusal == s->refusal, "%s of %s: refusal %u", f->name, s->name, refusal);
}

/* The most that a call takes, over all sorts of programs, enough lent and not. */
static size_t most_taken(uint8_t *stack, const struct figure *f)
{
    size_t most = 0;
    for (size_t i = 0; i < sizeof sorts / sizeof sorts[0]; i++) {
        build(&sorts[i]);
        for (size_t less = 0; less < 3; less++) {
            lend(sizeof registers / 4 - (less == 1), less == 2 ? 2 : sizeof work / 4, less == 1 ? 0 : sizeof output);
            size_t bytes = taken_at_most(stack, f->call);
            most = bytes > most ? bytes : most;
            if (less == 0) {
                expect_status(&sorts[i], f);
            }
        }
    }
    return most;
}

static void expect_figure(uint8_t *stack, const struct figure *f)
{
    size_t bytes = most_taken(stack, f);
    printf("stack: %s takes %zu of %zu bytes\n", f->name, bytes, f->bytes);
    EXPECT(bytes <= f->bytes, "%s takes more than the header says", f->name);
    EXPECT(bytes + bytes / 16 <= f->bytes, "%s has not a sixteenth to spare, as the header says", f->name);
    /* Of a call that takes next to nothing the header does not say so. */
    EXPECT(bytes > f->bytes / 2 || f->bytes <= 512, "the header says over twice what %s takes", f->name);
}

/* Calls with the stack pointer so many bytes above a page that cannot be touched, or 8 less for its alignment: `frame`
 * bytes of the stack are the caller's.
 */
static void just_enough(uint8_t *stack, const struct figure *f)
{
    if (mprotect(stack, PAGE, PROT_NONE) != 0) {
        abort();
    }
    on_stack(stack + ROOM, f->call);
    size_t frame = (size_t)(stack + ROOM - pointer) / 16 * 16;
    for (size_t i = 0; i < sizeof sorts / sizeof sorts[0]; i++) {
        build(&sorts[i]);
        lend(sizeof registers / 4, sizeof work / 4, sizeof output);
        on_stack(stack + PAGE + f->bytes + frame, f->call);
        EXPECT(pointer <= stack + PAGE + f->bytes && pointer >= stack + PAGE + f->bytes - 8,
               "%s: the stack is not of its bytes", f->name);
        expect_status(&sorts[i], f);
    }
    if (mprotect(stack, PAGE, PROT_READ | PROT_WRITE) != 0) {
        abort();
    }
}

int main(void)
{
    uint8_t *stack = mmap(NULL, ROOM, PROT_READ | PROT_WRITE, MAP_PRIVATE | MAP_ANONYMOUS, -1, 0);
    if (stack == MAP_FAILED) {
        abort();
    }
    for (size_t i = 0; i < sizeof figures / sizeof figures[0]; i++) {
        expect_figure(stack, &figures[i]);
    }
    for (size_t i = 0; faults == 0 && i < sizeof figures / sizeof figures[0]; i++) {
        just_enough(stack, &figures[i]);
    }
    return faults != 0;
}
