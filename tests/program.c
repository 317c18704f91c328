#include "program.h"

#include <inttypes.h>
#include <stdio.h>
#include <stdlib.h>
#include <string.h>

unsigned body(unsigned kind)
{
    static const struct {
        unsigned first, last, length;
    } rows[] = {{0x01, 0x01, 5},  {0x02, 0x02, 16}, {0x10, 0x1E, 9},  {0x20, 0x37, 14}, {0x40, 0x52, 14},
                {0x56, 0x5F, 14}, {0x60, 0x64, 19}, {0x70, 0x70, 24}, {0x80, 0x89, 0},  {0x90, 0x92, 5}};
    for (size_t i = 0; i < sizeof rows / sizeof rows[0]; i++) {
        if (rows[i].first <= kind && kind <= rows[i].last) {
            return rows[i].length;
        }
    }
    return UNKNOWN;
}

void byte(struct program *p, unsigned value)
{
    if (p->length == sizeof p->bytes) {
        abort();
    }
    p->bytes[p->length++] = (uint8_t)value;
}

void bytes(struct program *p, unsigned value, unsigned times)
{
    while (times-- > 0) {
        byte(p, value);
    }
}

static void number16(struct program *p, unsigned value)
{
    byte(p, value & 255);
    byte(p, value >> 8);
}

static void number32(struct program *p, uint32_t value)
{
    number16(p, value & 65535);
    number16(p, value >> 16);
}

void declare(struct program *p, unsigned file, unsigned first, unsigned last)
{
    byte(p, DECLARATION);
    byte(p, file);
    number16(p, first);
    number16(p, last);
}

void immediate(struct program *p, uint32_t x, uint32_t y, uint32_t z, uint32_t w)
{
    byte(p, IMMEDIATE);
    number32(p, x);
    number32(p, y);
    number32(p, z);
    number32(p, w);
}

void destination(struct program *p, enum kind kind, unsigned file, unsigned index, unsigned mask)
{
    byte(p, kind);
    byte(p, file);
    number16(p, index);
    byte(p, mask);
}

void source(struct program *p, unsigned file, unsigned index, unsigned swizzle, unsigned modifier)
{
    byte(p, file);
    number16(p, index);
    byte(p, swizzle);
    byte(p, modifier);
}

void control(struct program *p, enum kind kind, unsigned index, unsigned swizzle)
{
    byte(p, kind);
    source(p, IMM, index, swizzle, PLAIN);
}

void case_12(struct program *p)
{
    p->length = 0;
    declare(p, OUT, 0, 0);
    immediate(p, 25, 0, 0, 0);
    destination(p, MOV, OUT, 0, X);
    source(p, IMM, 0, TO_XYZW, PLAIN);
    byte(p, END);
}

void declare_all(struct program *p)
{
    declare(p, CONST, 0, 1023);
    declare(p, IN, 0, 31);
    declare(p, OUT, 0, 31);
    declare(p, TEMP, 0, 255);
    declare(p, ADDR, 0, 0);
    declare(p, MEM, 0, 0);
    immediate(p, 1, 2, 3, 4);
}

static void from(struct program *p, unsigned file, unsigned index, unsigned modifier)
{
    source(p, file, index, TO_XYZW, modifier);
}

static void arithmetic(struct program *p)
{
    destination(p, UARL, ADDR, 0, XYZW), from(p, IMM, 0, PLAIN);
    destination(p, UADD, TEMP, 0, XYZW), from(p, CONST, 3, NEGATE), from(p, TEMP, 1, BY_ADDR_X);
    destination(p, UDIV, TEMP, 1, X), from(p, IN, 3, PLAIN), from(p, CONST, 1, BY_ADDR_W + NEGATE);
    destination(p, U64DIV, TEMP, 2, XYZW), from(p, IN, 3, PLAIN), from(p, CONST, 1, PLAIN);
    destination(p, I64DIV, TEMP, 3, XYZW), from(p, IMM, 0, PLAIN), from(p, CONST, 1, BY_ADDR_W);
    destination(p, I64SHR, TEMP, 4, XYZW), from(p, IMM, 0, PLAIN), from(p, TEMP, 0, PLAIN);
    destination(p, UMAD, TEMP, 5, XYZW), from(p, IN, 3, NEGATE), from(p, CONST, 1, BY_ADDR_X + NEGATE);
    from(p, TEMP, 1, NEGATE);
    destination(p, BFI, TEMP, 6, XYZW), from(p, IN, 3, PLAIN), from(p, CONST, 1, PLAIN);
    from(p, TEMP, 1, PLAIN), from(p, IMM, 0, PLAIN);
}

void families(struct program *p)
{
    arithmetic(p);
    destination(p, LOAD, TEMP, 7, XYZW), from(p, IN, 0, PLAIN);
    destination(p, STORE, MEM, 0, XYZW), from(p, CONST, 0, PLAIN), from(p, IN, 0, PLAIN);
    destination(p, ATOMUADD, OUT, 0, XYZW), from(p, CONST, 0, PLAIN), from(p, IN, 0, PLAIN);
    destination(p, ATOMCAS, OUT, 1, XYZW), from(p, CONST, 0, PLAIN), from(p, IN, 0, PLAIN), from(p, CONST, 2, PLAIN);
}

void largest(struct program *p)
{
    static const unsigned last[] = {0, 1023, 31, 31, 255, 0, 0, 0};
    for (unsigned file = CONST; file <= MEM; file++) {
        for (unsigned i = 0; file != IMM && i <= last[file]; i++) {
            declare(p, file, i, i);
        }
    }
    for (uint32_t i = 0; i < 256; i++) {
        immediate(p, i, i, i, i);
    }
    for (unsigned i = 0; i < 1023; i++) {
        destination(p, BFI, TEMP, i % 256, XYZW);
        for (unsigned s = 0; s < 4; s++) {
            source(p, CONST, i, TO_XYZW, BY_ADDR_X);
        }
    }
    byte(p, END);
}

/* "declaration: file 1, first 2, last 2"; "immediate: four words"; "Destination: file 1, index 2, mask 1 ..";
 * "Source: file 1, index 2, swizzle 1 .., modifier 1"
 */
const char *widths(unsigned kind)
{
    switch (body(kind)) {
    case 5:
        return kind == DECLARATION ? "122" : "1211";
    case 9:
        return "121" "1211";
    case 14:
        return "121" "1211" "1211";
    case 16:
        return "4444";
    case 19:
        return "121" "1211" "1211" "1211";
    case 24:
        return "121" "1211" "1211" "1211" "1211";
    default:
        return "";
    }
}

void text(struct listing *l, const char *words)
{
    size_t length = strlen(words);
    if (length > sizeof l->text - l->length) {
        abort();
    }
    memcpy(l->text + l->length, words, length);
    l->length += length;
}

static void number(struct listing *l, const uint8_t *bytes, unsigned width)
{
    char decimal[11];
    uint32_t value = 0;
    for (unsigned i = width; i-- > 0;) {
        value = 256 * value + bytes[i];
    }
    snprintf(decimal, sizeof decimal, "%" PRIu32, value);
    text(l, decimal);
}

size_t list(struct listing *l, const struct program *p)
{
    size_t at = 0;
    l->length = 0;
    while (at < p->length && body(p->bytes[at]) != UNKNOWN && body(p->bytes[at]) < p->length - at) {
        const char *fields = widths(p->bytes[at]);
        number(l, p->bytes + at++, 1);
        for (; *fields != 0; fields++) {
            text(l, " ");
            number(l, p->bytes + at, (unsigned)(*fields - '0'));
            at += (size_t)(*fields - '0');
        }
        text(l, "\n");
    }
    return at;
}
