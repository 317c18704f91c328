/* Listings: document 02's example both ways, every field of every kind at its limit, lines that are malformed, the
 * order of refusals, and outputs that are exact, short and longer. Files, listings and outputs lie between pages that
 * cannot be touched, and what is only read cannot be written. What is expected is worked out here by document 02.
 */
#define _DEFAULT_SOURCE
#include "expect.h"
#include "guard.h"
#include "program.h"

enum { PAINT = 0x5A, MORE = 16 };

#define TWO_TO_32 ((size_t)1 << 32)

static struct program p;
static struct listing l;
static uint8_t output[ROPEBONNET_LONGEST_LISTING + MORE];
static size_t painted;

/* An output of so many bytes, and some more that are not lent. */
static void paint(size_t length)
{
    painted = length + MORE;
    memset(output, PAINT, painted);
}

static struct ropebonnet_answer print_into(size_t length)
{
    paint(length);
    return ropebonnet_print(p.bytes, p.length, output, length);
}

static struct ropebonnet_answer read_into(size_t length)
{
    paint(length);
    return ropebonnet_read(l.text, l.length, output, length);
}

static int is_painted(const uint8_t *bytes, size_t length)
{
    while (length-- > 0) {
        if (bytes[length] != PAINT) {
            return 0;
        }
    }
    return 1;
}

/* Whether the output has these bytes at its front, and is as it was past them. */
static int holds(const void *bytes, size_t length)
{
    return memcmp(output, bytes, length) == 0 && is_painted(output + length, painted - length);
}

/* Printing the program gives the listing and reading the listing gives the program, where the output is long enough. */
static void expect_both_ways(const char *what)
{
    for (size_t more = 0; more < 3; more++) {
        EXPECT_ANSWER(print_into(l.length + more), done((uint32_t)l.length), "%s: print, %zu bytes more", what, more);
        EXPECT(holds(l.text, l.length), "%s: another listing", what);
        EXPECT_ANSWER(read_into(p.length + more), done((uint32_t)p.length), "%s: read, %zu bytes more", what, more);
        EXPECT(holds(p.bytes, p.length), "%s: another file", what);
    }
    EXPECT_ANSWER(print_into(l.length - 1), refused(ROPEBONNET_OUTPUT_SHORT, 0), "%s: print, a byte short", what);
    EXPECT(holds("", 0), "%s: print refused, and a byte changed", what);
    EXPECT_ANSWER(read_into(p.length - 1), refused(ROPEBONNET_OUTPUT_SHORT, 0), "%s: read, a byte short", what);
    EXPECT(holds("", 0), "%s: read refused, and a byte changed", what);
    EXPECT(l.length <= 4 * p.length && l.length <= ROPEBONNET_LONGEST_LISTING, "%s: a longer listing", what);
}

/* "The 34 bytes of document 01 give `1 3 0 0`, `2 25 0 0 0`, `16 3 0 1 6 0 228 0`, `137`." */
static void example(void)
{
    static const uint8_t file[] = {0x01, 0x03, 0, 0, 0, 0, 0x02, 0x19, 0, 0, 0, 0, 0, 0, 0, 0, 0,
                                   0, 0, 0, 0, 0, 0, 0x10, 0x03, 0, 0, 0x01, 0x06, 0, 0, 0xE4, 0, 0x89};
    memcpy(p.bytes, file, sizeof file);
    p.length = sizeof file;
    l.length = 0;
    text(&l, "1 3 0 0\n2 25 0 0 0\n16 3 0 1 6 0 228 0\n137\n");
    EXPECT(p.length == 34 && l.length == 42, "the example has %zu and %zu bytes", p.length, l.length);
    expect_both_ways("document 02's example");
}

static void listed(const char *what)
{
    EXPECT(list(&l, &p) == p.length, "%s: not whole records", what);
    expect_both_ways(what);
}

static void every_form(struct program *p)
{
    declare_all(p);
    immediate(p, UINT32_MAX, 1000000000, 999999999, 100);
    families(p);
    destination(p, MOV, OUT, 31, XYZW), source(p, CONST, 65535, TO_WWWW, BY_ADDR_W);
    control(p, UIF, 1, TO_XYZW);
    byte(p, ENDIF);
    byte(p, END);
}

static void programs(void)
{
    p.length = 0;
    byte(&p, END);
    listed("END alone");
    p.length = 0;
    bytes(&p, NOP, ROPEBONNET_MOST_INSTRUCTIONS - 1);
    byte(&p, END);
    listed("four bytes for each byte");
    EXPECT(l.length == 4 * p.length, "a shorter listing");
    p.length = 0;
    every_form(&p);
    listed("every form of record");
    p.length = 0;
    largest(&p);
    listed("the largest");
}

static void expect_malformed(size_t place, const char *what)
{
    EXPECT_ANSWER(read_into(100), refused(ROPEBONNET_MALFORMED_LINE, (uint32_t)place), "%s", what);
    EXPECT(holds("", 0), "%s: malformed, and a byte changed", what);
}

/* The line of a kind with the greatest number in each field, but for one number: the kind is number 0. */
static void line(const char *kind, unsigned of, size_t changed, const char *to)
{
    const char *fields = widths(of);
    text(&l, changed == 0 ? to : kind);
    for (size_t i = 0; fields[i] != 0; i++) {
        text(&l, " ");
        text(&l, changed == i + 1 ? to : fields[i] == '1' ? "255" : fields[i] == '2' ? "65535" : "4294967295");
    }
    text(&l, "\n");
}

/* "a number too large for its field": one more, 2^32 and 2^64 more. A leading zero, and no number. */
static const char *const faulty_fields[][6] = {
    {"256", "4294967296", "4294967551", "18446744073709551871", "0255", ""},
    {"65536", "4294967296", "4295032831", "18446744073709617151", "065535", ""},
    {"4294967296", "8589934591", "18446744073709551616", "18446744078004518911", "04294967295", ""},
};

static void fields_of(unsigned kind, const char *decimal)
{
    const char *fields = widths(kind);
    for (size_t i = 0; fields[i] != 0; i++) {
        for (size_t f = 0; f < 6; f++) {
            const char *const faulty = faulty_fields[fields[i] == '4' ? 2 : fields[i] - '1'][f];
            l.length = 0;
            text(&l, "128\n");
            line(decimal, kind, i + 1, faulty);
            expect_malformed(4, faulty);
        }
    }
    static const char *const ends[] = {" 0\n", " \n", "\r\n", "0\n", "\n\n"};
    for (size_t i = 0; i < sizeof ends / sizeof ends[0]; i++) {
        l.length = 0;
        line(decimal, kind, SIZE_MAX, "");
        size_t whole = l.length--;
        text(&l, ends[i]);
        expect_malformed(i == 4 ? whole : 0, "a line with more after it");
    }
}

/* The greatest number in each field is well formed: what is read is checked as a file, which has 255 in all bodies. */
static void greatest_fields(unsigned kind, const char *decimal)
{
    l.length = p.length = 0;
    text(&l, "128\n");
    line(decimal, kind, SIZE_MAX, "");
    byte(&p, NOP);
    byte(&p, kind);
    bytes(&p, 255, body(kind));
    struct ropebonnet_answer wanted = ropebonnet_check(p.bytes, p.length);
    EXPECT_ANSWER(read_into(100), wanted.status == ROPEBONNET_DONE ? done((uint32_t)p.length) : wanted,
                  "kind %u, the greatest numbers", kind);
}

/* "also an unknown kind": these, those over 255, and those that are a kind modulo 2^8, 2^32 or 2^64. */
static void kinds(void)
{
    static const char *const more[] = {"%u", "0%u", "429496%u", "1844674407370955%u"};
    static const unsigned to_add[] = {256, 0, 7296, 1616};
    char decimal[32];
    for (unsigned kind = 0; kind < 256; kind++) {
        for (size_t i = 0; i < sizeof more / sizeof more[0]; i++) {
            snprintf(decimal, sizeof decimal, more[i], kind + to_add[i]);
            l.length = 0;
            line(decimal, kind, SIZE_MAX, "");
            expect_malformed(0, decimal);
        }
        snprintf(decimal, sizeof decimal, "%u", kind);
        if (body(kind) != UNKNOWN) {
            fields_of(kind, decimal);
            greatest_fields(kind, decimal);
        } else {
            l.length = 0;
            line(decimal, kind, SIZE_MAX, "");
            expect_malformed(0, decimal);
        }
    }
}

/* Each between two lines that are well formed. */
static void malformed_lines(void)
{
    static const char *const lines[] = {
        "", " ", "  ", "128 ", " 128", "0128", "+128", "-128", "1e2", "0x80", "NOP", "128.", "128,0", "128\t", "128\r",
        "\v128", "1 3 0", "1 3", "1", "1 3 0 0 0", "1  3 0 0", "1 3 0 0 ", " 1 3 0 0", "1\t3 0 0", "1 3 00 0",
        "1 3 0 00", "01 3 0 0", "1 3 0 x", "1 3 -0 0", "1 3 0 0\r", "1 3 /0 0", "1 3 0 :", "1 256 0 0",
        "1 3 0 65536", "2 25 0 0", "2 4294967296 0 0 0", "16 3 0 1 6 0 228", "16 3 0 1 6 0 228 0 0", "3", "138",
    };
    for (size_t i = 0; i < sizeof lines / sizeof lines[0]; i++) {
        l.length = 0;
        text(&l, "1 3 0 0\n");
        text(&l, lines[i]);
        text(&l, "\n137\n");
        expect_malformed(8, lines[i]);
        l.length = 8;
        text(&l, lines[i]);
        if (lines[i][0] != 0) {
            expect_malformed(8, "the same without a line feed");
        }
    }
    l.length = 0;
    text(&l, "128\n137");
    expect_malformed(4, "a last line without its line feed");
    l.length = 0;
    text(&l, "128\n137\n");
    l.text[7] = 0;
    expect_malformed(4, "a 0 byte for the line feed");
    l.length = 0;
    text(&l, "128\n1 3 0 0\n");
    l.text[6] = 0;
    expect_malformed(4, "a 0 byte for a digit");
}

/* "a number may have any length": over ten thousand digits. */
static void long_numbers(void)
{
    static const char digits[] = "01234567890123456789012345678901234567890123456789";
    for (size_t start = 0; start < 10; start++) {
        l.length = 0;
        text(&l, "128\n2 1 1 1 ");
        text(&l, digits + start);
        for (size_t i = 0; i < 200; i++) {
            text(&l, digits);
        }
        text(&l, "\n");
        expect_malformed(4, "a long number");
    }
}

/* "in reading, 30 malformed line .., then the read program's own, then 31 output short; in printing, the program's own,
 * then 31." Places of the program's own are places in the file that was read.
 */
static void order(void)
{
    p.length = l.length = 0;
    EXPECT_ANSWER(read_into(0), refused(ROPEBONNET_NO_END, 0), "an empty listing");
    text(&l, "137\n128\n");
    EXPECT_ANSWER(read_into(0), refused(ROPEBONNET_BYTE_AFTER_END, 1), "a line after END, and no output");
    text(&l, "x\n");
    expect_malformed(8, "a line after END, and a malformed one");
    bytes(&p, END, 2);
    EXPECT_ANSWER(print_into(0), refused(ROPEBONNET_BYTE_AFTER_END, 1), "print: a byte after END, and no output");
    p.length = 0;
    bytes(&p, NOP, ROPEBONNET_LONGEST_FILE + 1);
    list(&l, &p);
    EXPECT_ANSWER(read_into(0), refused(ROPEBONNET_FILE_TOO_LONG, 0), "a line more than a file may have bytes");
    l.text[l.length - 1] = ' ';
    expect_malformed(4 * ROPEBONNET_LONGEST_FILE, "the line after as many as a file may have bytes");
    l.length -= 4;
    EXPECT_ANSWER(read_into(0), refused(ROPEBONNET_TOO_MANY, 1024), "as many lines as a file may have bytes");
    l.text[l.length - 1] = ' ';
    expect_malformed(4 * ROPEBONNET_LONGEST_FILE - 4, "the last of as many");
}

typedef struct ropebonnet_answer call(const uint8_t *from, size_t from_length, uint8_t *to, size_t to_length);

/* A call whose buffers have pages of their own: `mapped` bytes of the output can be touched, and `lent` are lent. */
static void in_pages(call *call, const void *from, size_t from_length, const void *wanted, size_t wanted_length,
                     size_t mapped, size_t lent, enum side side)
{
    memset(output, PAINT, mapped);
    struct guarded input = guard(from, from_length, side), filled = guard(output, mapped, side);
    only_read(input);
    size_t written = lent < wanted_length ? 0 : wanted_length;
    EXPECT_ANSWER(call(input.start, from_length, filled.start, lent),
                  lent < wanted_length ? refused(ROPEBONNET_OUTPUT_SHORT, 0) : done((uint32_t)written),
                  "%zu bytes lent, %zu wanted", lent, wanted_length);
    EXPECT(memcmp(filled.start, wanted, written) == 0 && is_painted(filled.start + written, mapped - written),
           "%zu bytes lent, %zu wanted: another output", lent, wanted_length);
    EXPECT(slack_stays(filled), "a byte beside the output was written");
    release(input);
    release(filled);
}

static void of_lengths(call *call, const void *from, size_t from_length, const void *wanted, size_t wanted_length)
{
    for (enum side side = FIRST; side <= LAST; side++) {
        for (size_t length = 0; length < wanted_length + 40; length++) {
            in_pages(call, from, from_length, wanted, wanted_length, length, length, side);
        }
    }
    in_pages(call, from, from_length, wanted, wanted_length, wanted_length, ROPEBONNET_LONGEST_LISTING, LAST);
    in_pages(call, from, from_length, wanted, wanted_length, wanted_length, TWO_TO_32, LAST);
    in_pages(call, from, from_length, wanted, wanted_length, wanted_length, TWO_TO_32 + 1, LAST);
}

/* Outputs of all lengths up to some more than is written, and of 2^32 bytes, of which only those can be touched. */
static void outputs(void)
{
    case_12(&p);
    list(&l, &p);
    of_lengths(ropebonnet_print, p.bytes, p.length, l.text, l.length);
    of_lengths(ropebonnet_read, l.text, l.length, p.bytes, p.length);
}

/* What a beginning of the listing is answered: its last line is cut, or the file that it gives has no END. */
static struct ropebonnet_answer answer_of(size_t length)
{
    size_t line = 0, file = 0;
    for (size_t i = 0; i < length; i++) {
        if (l.text[i] == '\n') {
            line = i + 1;
            file += 1 + body(p.bytes[file]);
        }
    }
    if (line < length) {
        return refused(ROPEBONNET_MALFORMED_LINE, (uint32_t)line);
    }
    return file < p.length ? refused(ROPEBONNET_NO_END, (uint32_t)file) : done((uint32_t)p.length);
}

static void beginnings(enum side side)
{
    p.length = 0;
    every_form(&p);
    list(&l, &p);
    for (size_t length = 0; length <= l.length; length++) {
        struct guarded beginning = guard(l.text, length, side);
        only_read(beginning);
        EXPECT_ANSWER(ropebonnet_read(beginning.start, length, output, sizeof output), answer_of(length),
                      "%zu bytes of a listing", length);
        release(beginning);
    }
}

/* Files, listings and outputs may start at any byte. */
static void aligned_otherwise(void)
{
    static _Alignas(64) uint8_t from[2048], to[2048];
    p.length = 0;
    every_form(&p);
    list(&l, &p);
    for (size_t offset = 0; offset < 16; offset++) {
        memcpy(from + offset, p.bytes, p.length);
        EXPECT_ANSWER(ropebonnet_print(from + offset, p.length, to + 3 * offset % 16, l.length),
                      done((uint32_t)l.length), "print, aligned otherwise");
        EXPECT(memcmp(to + 3 * offset % 16, l.text, l.length) == 0, "another listing, aligned otherwise");
        memcpy(from + offset, l.text, l.length);
        EXPECT_ANSWER(ropebonnet_read(from + offset, l.length, to + 3 * offset % 16, p.length),
                      done((uint32_t)p.length), "read, aligned otherwise");
        EXPECT(memcmp(to + 3 * offset % 16, p.bytes, p.length) == 0, "another file, aligned otherwise");
    }
}

/* A length that is 0 in its lower 32 bits, and one that is 4 there: the second line is malformed. */
static void of_2_to_32_bytes(void)
{
    uint8_t *bytes = mmap(NULL, TWO_TO_32 + GUARD_PAGE, PROT_READ | PROT_WRITE,
                          MAP_PRIVATE | MAP_ANONYMOUS | MAP_NORESERVE, -1, 0);
    if (bytes == MAP_FAILED) {
        abort();
    }
    memcpy(bytes, "137\nx\n", 6);
    EXPECT_ANSWER(ropebonnet_read(bytes, TWO_TO_32, output, sizeof output), refused(ROPEBONNET_MALFORMED_LINE, 4),
                  "a listing of 2^32 bytes");
    EXPECT_ANSWER(ropebonnet_read(bytes, TWO_TO_32 + 4, output, sizeof output), refused(ROPEBONNET_MALFORMED_LINE, 4),
                  "a listing of 2^32 bytes and 4");
    munmap(bytes, TWO_TO_32 + GUARD_PAGE);
}

/* "A pointer whose length is 0 may be any, NULL among them." */
static void of_length_0(void)
{
    static const uint8_t end[] = {END};
    EXPECT_ANSWER(ropebonnet_print(NULL, 0, NULL, 0), refused(ROPEBONNET_NO_END, 0), "print: nothing lent");
    EXPECT_ANSWER(ropebonnet_read(NULL, 0, NULL, 0), refused(ROPEBONNET_NO_END, 0), "read: nothing lent");
    EXPECT_ANSWER(ropebonnet_print(end, 1, NULL, 0), refused(ROPEBONNET_OUTPUT_SHORT, 0), "print: no output");
    EXPECT_ANSWER(ropebonnet_read((const uint8_t *)"137\n", 4, NULL, 0), refused(ROPEBONNET_OUTPUT_SHORT, 0),
                  "read: no output");
}

int main(void)
{
    EXPECT(ROPEBONNET_MALFORMED_LINE == 30 && ROPEBONNET_OUTPUT_SHORT == 31, "the header has other numbers");
    example();
    programs();
    kinds();
    malformed_lines();
    long_numbers();
    order();
    outputs();
    beginnings(FIRST);
    beginnings(LAST);
    aligned_otherwise();
    of_2_to_32_bytes();
    of_length_0();
    return faults != 0;
}
