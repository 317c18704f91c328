/* What a test expects; a test's exit status is whether something was not so. */
#ifndef EXPECT_H
#define EXPECT_H

#include "ropebonnet.h"

#include <stdio.h>

static unsigned faults;

#define EXPECT(truth, ...)                       \
    do {                                         \
        if (!(truth)) {                          \
            printf("%s:%d: ", __FILE__, __LINE__); \
            printf(__VA_ARGS__);                 \
            printf("\n");                        \
            faults++;                            \
        }                                        \
    } while (0)

#define EXPECT_ANSWER(found, wanted, ...)                                                                        \
    do {                                                                                                         \
        struct ropebonnet_answer f = (found), w = (wanted);                                                      \
        EXPECT(f.status == w.status && f.first == w.first && f.second == w.second, __VA_ARGS__);                 \
        if (f.status != w.status || f.first != w.first || f.second != w.second) {                                \
            printf("  found %u %u %u, wanted %u %u %u\n", f.status, f.first, f.second, w.status, w.first, w.second); \
        }                                                                                                        \
    } while (0)

static inline struct ropebonnet_answer done(uint32_t count)
{
    return (struct ropebonnet_answer){ROPEBONNET_DONE, count, 0};
}

static inline struct ropebonnet_answer halted(uint32_t steps, uint32_t next)
{
    return (struct ropebonnet_answer){ROPEBONNET_HALTED, steps, next};
}

static inline struct ropebonnet_answer refused(uint32_t number, uint32_t place)
{
    return (struct ropebonnet_answer){ROPEBONNET_REFUSED, number, place};
}

#endif
