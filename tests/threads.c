/* Calls at once: eight threads, each with a program and words of its own, and a signal handler that runs a program
 * while a run is under way. Each run has the result that document 01 gives it alone, and each program's listing is
 * printed and read back. The threads' stacks are as small as the header allows.
 */
#define _DEFAULT_SOURCE
#include "expect.h"
#include "program.h"

#include <limits.h>
#include <pthread.h>
#include <signal.h>
#include <stdlib.h>
#include <string.h>
#include <sys/time.h>

enum { THREADS = 8, ROUNDS = 100, TURNS = 300, INTERRUPTS = 50, MOST_RUNS = 200000 };

/* A program and what it is lent. */
struct host {
    struct program program;
    uint32_t turns, factor;
    uint32_t inputs[4];
    uint32_t registers[ROPEBONNET_REGISTER_WORDS];
    uint32_t work[ROPEBONNET_WORK_WORDS * 20];
    uint32_t memory[4 * (TURNS + THREADS)];
    uint32_t wanted[4 * (TURNS + THREADS)];
    struct listing listing;
    uint8_t printed[1024], file[1024];
    unsigned wrong;
};

static void two_sources(struct program *p, unsigned file, unsigned index, unsigned swizzle, unsigned of_imm)
{
    source(p, file, index, swizzle, PLAIN);
    source(p, IMM, 0, of_imm, PLAIN);
}

/* TEMP[1] = TEMP[1] * factor + IN[0], stored four words further at every turn, and at last put into OUT[0]. */
static void build(struct host *h)
{
    struct program *p = &h->program;
    declare(p, IN, 0, 0);
    declare(p, OUT, 0, 0);
    declare(p, TEMP, 0, 3);
    declare(p, MEM, 0, 0);
    immediate(p, 1, h->turns, h->factor, 16);
    byte(p, BGNLOOP);
    destination(p, UMAD, TEMP, 1, XYZW), two_sources(p, TEMP, 1, TO_XYZW, TO_ZZZZ), source(p, IN, 0, TO_XYZW, PLAIN);
    destination(p, STORE, MEM, 0, XYZW), source(p, TEMP, 2, TO_XYZW, PLAIN), source(p, TEMP, 1, TO_XYZW, PLAIN);
    destination(p, UADD, TEMP, 2, X), two_sources(p, TEMP, 2, TO_XXXX, TO_WWWW);
    destination(p, UADD, TEMP, 0, X), two_sources(p, TEMP, 0, TO_XXXX, TO_XXXX);
    destination(p, USGE, TEMP, 3, X), two_sources(p, TEMP, 0, TO_XXXX, TO_YYYY);
    byte(p, UIF), source(p, TEMP, 3, TO_XXXX, PLAIN);
    byte(p, BRK);
    byte(p, ENDIF);
    byte(p, ENDLOOP);
    destination(p, MOV, OUT, 0, XYZW), source(p, TEMP, 1, TO_XYZW, PLAIN);
    byte(p, END);
}

static void make(struct host *h, uint32_t number)
{
    uint32_t word[4] = {0, 0, 0, 0};
    h->turns = TURNS + number;
    h->factor = 3 + 2 * number;
    for (uint32_t c = 0; c < 4; c++) {
        h->inputs[c] = 1000 * number + c;
    }
    for (uint32_t i = 0; i < 4 * h->turns; i++) {
        word[i % 4] = word[i % 4] * h->factor + h->inputs[i % 4];
        h->wanted[i] = word[i % 4];
    }
    build(h);
    list(&h->listing, &h->program);
}

static void print_and_read(struct host *h)
{
    size_t length = h->listing.length;
    memset(h->printed, 0x33, sizeof h->printed);
    memset(h->file, 0x44, sizeof h->file);
    if (ropebonnet_print(h->program.bytes, h->program.length, h->printed, sizeof h->printed).first != length ||
        ropebonnet_read(h->printed, length, h->file, sizeof h->file).first != h->program.length ||
        memcmp(h->printed, h->listing.text, length) != 0 || memcmp(h->file, h->program.bytes, h->program.length) != 0) {
        h->wrong++;
    }
}

/* Steps: BGNLOOP; seven a turn, since a UIF that is false goes after ENDIF and the last turn has BRK for ENDLOOP; MOV
 * and END.
 */
static void run(struct host *h)
{
    size_t words = 4 * h->turns;
    memset(h->memory, 0x11, sizeof h->memory);
    memset(h->registers, 0x22, sizeof h->registers);
    struct ropebonnet_answer answer =
        ropebonnet_run(h->program.bytes, h->program.length, h->inputs, 4, NULL, 0, h->registers,
                       ROPEBONNET_REGISTER_WORDS, h->work, sizeof h->work / 4, h->memory, words, 1000000);
    if (answer.status != ROPEBONNET_DONE || answer.first != 1 + 7 * h->turns + 2 ||
        memcmp(h->memory, h->wanted, 4 * words) != 0 ||
        memcmp(h->registers + ROPEBONNET_OUT(0), h->wanted + words - 4, 16) != 0) {
        h->wrong++;
    }
    print_and_read(h);
}

static struct host hosts[THREADS];
static pthread_barrier_t start;

static void *thread(void *argument)
{
    pthread_barrier_wait(&start);
    for (unsigned i = 0; i < ROUNDS; i++) {
        run(argument);
    }
    return NULL;
}

static void threads(void)
{
    pthread_t ids[THREADS];
    pthread_attr_t attributes;
    pthread_attr_init(&attributes);
    pthread_barrier_init(&start, NULL, THREADS);
    if (pthread_attr_setstacksize(&attributes, ROPEBONNET_READ_STACK + (size_t)PTHREAD_STACK_MIN) != 0) {
        abort();
    }
    for (uint32_t i = 0; i < THREADS; i++) {
        run(&hosts[i]);
        EXPECT(hosts[i].wrong == 0, "program %u alone has another result", i);
    }
    for (uint32_t i = 0; i < THREADS; i++) {
        if (pthread_create(&ids[i], &attributes, thread, &hosts[i]) != 0) {
            abort();
        }
    }
    for (uint32_t i = 0; i < THREADS; i++) {
        pthread_join(ids[i], NULL);
        EXPECT(hosts[i].wrong == 0, "thread %u: %u of %u runs had another result", i, hosts[i].wrong, ROUNDS);
    }
}

static volatile sig_atomic_t under_way, interrupts;

static void interrupt(int number)
{
    (void)number;
    if (under_way) {
        run(&hosts[1]);
        interrupts++;
    }
}

static void handler(void)
{
    struct sigaction action;
    struct itimerval often = {{0, 500}, {0, 500}}, never = {{0, 0}, {0, 0}};
    memset(&action, 0, sizeof action);
    action.sa_handler = interrupt;
    sigaction(SIGALRM, &action, NULL);
    setitimer(ITIMER_REAL, &often, NULL);
    for (unsigned i = 0; interrupts < INTERRUPTS && i < MOST_RUNS; i++) {
        under_way = 1;
        run(&hosts[0]);
        under_way = 0;
    }
    setitimer(ITIMER_REAL, &never, NULL);
    EXPECT(interrupts >= INTERRUPTS, "only %d runs were interrupted", (int)interrupts);
    EXPECT(hosts[0].wrong == 0, "a run that was interrupted has another result");
    EXPECT(hosts[1].wrong == 0, "a run in a signal handler has another result");
}

int main(void)
{
    for (uint32_t i = 0; i < THREADS; i++) {
        make(&hosts[i], i);
    }
    threads();
    handler();
    return faults != 0;
}
