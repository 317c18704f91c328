/* Program files put together record by record, by document 01's table of kinds, and their listings, by document 02, for
 * the tests of the C interface.
 */
#ifndef PROGRAM_H
#define PROGRAM_H

#include "ropebonnet.h"

/* "1 CONST 0-1023, 2 IN 0-31, 3 OUT 0-31, 4 TEMP 0-255, 5 ADDR 0, 6 IMM .., 7 MEM 0" */
enum { CONST = 1, IN, OUT, TEMP, ADDR, IMM, MEM };

enum kind {
    DECLARATION = 0x01,
    IMMEDIATE = 0x02,
    MOV = 0x10,
    UARL = 0x1A,
    LOAD = 0x1E,
    UADD = 0x20,
    UDIV = 0x25,
    USGE = 0x35,
    U64DIV = 0x42,
    I64DIV = 0x44,
    I64SHR = 0x4B,
    STORE = 0x58,
    ATOMUADD = 0x59,
    UMAD = 0x60,
    ATOMCAS = 0x64,
    BFI = 0x70,
    NOP = 0x80,
    ELSE,
    ENDIF,
    BGNLOOP,
    ENDLOOP,
    BRK,
    CONT,
    DEFAULT,
    ENDSWITCH,
    END,
    UIF = 0x90,
    SWITCH,
    CASE
};

/* Masks and swizzles: "bit 0 is x"; "two bits per component, x lowest". */
enum { X = 1, Y = 2, Z = 4, W = 8, XYZW = 15 };
enum { TO_XYZW = 0xE4, TO_XXXX = 0x00, TO_YYYY = 0x55, TO_ZZZZ = 0xAA, TO_WWWW = 0xFF };

/* Modifiers: "negate + 2·indirect, indirect 0 for none or 1 to 4 for ADDR[0].x to .w" */
enum { PLAIN = 0, NEGATE = 1, BY_ADDR_X = 2, BY_ADDR_W = 8 };

/* The length of the body that document 01's table gives a kind. */
enum { UNKNOWN = 255 };
unsigned body(unsigned kind);

/* One byte more than a file may have. */
struct program {
    uint8_t bytes[ROPEBONNET_LONGEST_FILE + 1];
    size_t length;
};

void byte(struct program *p, unsigned value);
void bytes(struct program *p, unsigned value, unsigned times);
void declare(struct program *p, unsigned file, unsigned first, unsigned last);
void immediate(struct program *p, uint32_t x, uint32_t y, uint32_t z, uint32_t w);
void destination(struct program *p, enum kind kind, unsigned file, unsigned index, unsigned mask);
void source(struct program *p, unsigned file, unsigned index, unsigned swizzle, unsigned modifier);
void control(struct program *p, enum kind kind, unsigned index, unsigned swizzle); /* UIF, SWITCH, CASE over IMM */

/* Document 01's case 12: MOV OUT[0].x, IMM[0] and END. */
void case_12(struct program *p);

/* Every register of every file declared, and IMM[0] = 1 2 3 4. */
void declare_all(struct program *p);

/* Twelve instructions, one of each family, whose sources are read in every way, after declare_all. */
void families(struct program *p);
enum { FAMILIES = 12 };

/* Document 01's limits together: 1,346 declarations, 256 immediates, 1,023 instructions of 25 bytes, END. */
void largest(struct program *p);

/* The bytes of each of a kind's fields, in file order, a digit each. */
const char *widths(unsigned kind);

/* Room for one line more than a file may have records. */
struct listing {
    uint8_t text[4 * (ROPEBONNET_LONGEST_FILE + 1)];
    size_t length;
};

void text(struct listing *l, const char *words);

/* The lines of a file's records: those before the first that is unknown or cut. Answers the bytes of these records. */
size_t list(struct listing *l, const struct program *p);

#endif
