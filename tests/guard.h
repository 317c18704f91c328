/* Buffers between pages that cannot be touched: a read or a write beside one that lies against such a page ends the
 * test.
 */
#ifndef GUARD_H
#define GUARD_H

#include <stdint.h>
#include <stdlib.h>
#include <string.h>
#include <sys/mman.h>

/* The pages of a buffer have room for a file of 65,536 bytes. After them come so many bytes that cannot be touched that
 * a buffer may be lent as one of 2^32 words and more.
 */
#define GUARD_PAGE ((size_t)4096)
#define GUARD_ROOM (17 * GUARD_PAGE)
#define GUARD_AFTER (((size_t)1 << 34) + 16 * GUARD_PAGE)

enum { SLACK = 0xC3 };
enum side { FIRST, LAST };

struct guarded {
    uint8_t *pages;
    uint8_t *start;
    size_t length;
};

/* A buffer against the page before its own or the one after them; what is left of its pages is painted. */
static inline struct guarded guard(const void *content, size_t length, enum side side)
{
    struct guarded g = {NULL, NULL, length};
    uint8_t *all = mmap(NULL, GUARD_PAGE + GUARD_ROOM + GUARD_AFTER, PROT_NONE,
                        MAP_PRIVATE | MAP_ANONYMOUS | MAP_NORESERVE, -1, 0);
    if (all == MAP_FAILED || mprotect(all + GUARD_PAGE, GUARD_ROOM, PROT_READ | PROT_WRITE) != 0) {
        abort();
    }
    g.pages = all + GUARD_PAGE;
    g.start = side == LAST ? g.pages + GUARD_ROOM - length : g.pages;
    memset(g.pages, SLACK, GUARD_ROOM);
    memcpy(g.start, content, length);
    return g;
}

static inline void only_read(struct guarded g)
{
    if (mprotect(g.pages, GUARD_ROOM, PROT_READ) != 0) {
        abort();
    }
}

static inline int slack_stays(struct guarded g)
{
    for (uint8_t *b = g.pages; b < g.pages + GUARD_ROOM; b++) {
        if ((b < g.start || b >= g.start + g.length) && *b != SLACK) {
            return 0;
        }
    }
    return 1;
}

static inline uint32_t *words_of(struct guarded g)
{
    return (uint32_t *)(void *)g.start;
}

static inline void release(struct guarded g)
{
    munmap(g.pages - GUARD_PAGE, GUARD_PAGE + GUARD_ROOM + GUARD_AFTER);
}

#endif
