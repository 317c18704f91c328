/* Ropebonnet: checks, prepares and runs TGSI integer programs, prints their listings and reads these back, over words
 * and bytes the caller lends.
 *
 * The library allocates nothing, keeps no pointer after a call, and reads and writes only what is lent to it. A call
 * that refuses leaves all that is lent as it was. A call ends for all arguments that keep the rules of what is lent.
 *
 * What is lent. A buffer is a pointer and its length, in bytes for a file, a listing and an output, and in words for
 * all else.
 *   - Words are 4 byte aligned, as every uint32_t is. Bytes may start anywhere. A pointer whose length is 0 may be any,
 *     NULL among them.
 *   - An output is written from its front. The answer gives how many bytes were written, and the bytes past them stay.
 *   - Two buffers of one call must not overlap, unless both are only read. The compiler counts on it that what is
 *     written through one pointer is not read through another, and what is proved is proved of buffers that lie apart:
 *     of a call that breaks this nothing is known, not even that it stays within its buffers.
 *
 * Threads. The library has no data of its own but constants. Any number of calls may be under way at once, in threads
 * or in a signal handler that interrupts a call, if no call writes what another is lent.
 *
 * The machine. x86-64 with SSE2 and nothing newer, System V calling convention, position independent. The library
 * needs memcpy and memset and nothing else: no C library, no start-up code, no threads, no floating point. It uses xmm
 * registers, and the red zone, which is the 128 bytes below the stack pointer: where interrupts are taken on the stack
 * that it runs on, as in a kernel, a call needs a stack of its own that they do not write to.
 *
 * Time. A run takes as long as its budget lets it: 5 to 40 nanoseconds a step, and a SWITCH some 3 more for each label
 * that it compares. At that the largest budget comes to 20 seconds of an empty loop, and to over an hour of a SWITCH
 * with 1,000 labels. A read takes as long as its listing goes on: up to 14 nanoseconds a byte, so 4 milliseconds for
 * one of ROPEBONNET_LONGEST_LISTING bytes. Every other call, and a run up to its first step, takes under a millisecond.
 * This was measured on one machine with an older compiler, with the largest files among others, and is not proved;
 * proved is that a run carries out no more steps than its budget.
 *
 * Where it is built. `make build` in its repository proves it and writes target/staticlib/libropebonnet.a;
 * `make install` installs what `make build` wrote.
 */
#ifndef ROPEBONNET_H
#define ROPEBONNET_H

#include <stddef.h>
#include <stdint.h>

#ifdef __cplusplus
extern "C" {
#endif

/* The version that this header describes: 10000 * major + 100 * minor + patch. A host compares it with
 * ropebonnet_version(), and ROPEBONNET_WORK_WORDS with ropebonnet_row_words().
 */
#define ROPEBONNET_VERSION 10100u

/* Limits of a program and of what is lent. */
#define ROPEBONNET_LONGEST_FILE 65536u      /* bytes */
#define ROPEBONNET_LONGEST_LISTING 262144u  /* bytes: no listing has more than 4 for each byte of its file */
#define ROPEBONNET_MOST_INSTRUCTIONS 1024u
#define ROPEBONNET_MOST_INPUTS 128u         /* words: no program asks for more, IN[0] to IN[31] */
#define ROPEBONNET_MOST_CONSTANTS 4096u     /* words: no program asks for more, CONST[0] to CONST[1023] */
#define ROPEBONNET_REGISTER_WORDS 1156u     /* the least that a run asks for */
#define ROPEBONNET_WORK_WORDS 3u            /* per instruction */
#define ROPEBONNET_MOST_MEMORY 16384u       /* words */

/* Bytes of stack that a call takes at most, from the caller's stack pointer down: its return address and the arguments
 * that do not go in registers are among them. A refusal may take as much as a run. They are measured and not proved;
 * each is at least a sixteenth more than the most that was seen, since another compiler may lay frames out otherwise.
 * Not among them is what a signal handler takes on the same stack, what the host's memcpy and memset take beyond 64 bytes,
 * and what a dynamic linker takes that looks these up at their first call (some thousand bytes; none if linked with
 * -z now or statically).
 */
#define ROPEBONNET_CHECK_STACK 16384u
#define ROPEBONNET_NEEDS_STACK 16384u
#define ROPEBONNET_PREPARE_STACK 20480u
#define ROPEBONNET_RUN_STACK 81920u
#define ROPEBONNET_RECORD_STACK 512u
#define ROPEBONNET_PRINT_STACK 16384u
#define ROPEBONNET_READ_STACK 98304u

/* Where registers lie in the register words, four words each. */
#define ROPEBONNET_OUT(i) (4u * (i))         /* OUT[0] to OUT[31] */
#define ROPEBONNET_TEMP(i) (128u + 4u * (i)) /* TEMP[0] to TEMP[255] */
#define ROPEBONNET_ADDR 1152u                /* ADDR[0] */

/* The status of an answer. */
#define ROPEBONNET_DONE 0u
#define ROPEBONNET_HALTED 1u
#define ROPEBONNET_REFUSED 2u

/* Refusals of a file, given by every call but ropebonnet_record; by ropebonnet_read of the file that the listing gives,
 * and none of 3 and 4, since a line that is not malformed is a whole record of a known kind. The place is the first byte
 * of the record, unless stated.
 */
#define ROPEBONNET_FILE_TOO_LONG 1u         /* file over 65,536 bytes (place 0) */
#define ROPEBONNET_BYTE_AFTER_END 2u        /* a byte follows END (place of that byte) */
#define ROPEBONNET_UNKNOWN_KIND 3u
#define ROPEBONNET_BODY_PAST_FILE 4u        /* body runs past the file */
#define ROPEBONNET_DECLARATION_TOO_LATE 5u  /* declaration or immediate after an instruction */
#define ROPEBONNET_TOO_MANY 6u              /* 1,025th instruction or 257th immediate */
#define ROPEBONNET_FIELD_RULE_BROKEN 7u
#define ROPEBONNET_DECLARATION_OVERLAPS 8u  /* an earlier one of its register file */
#define ROPEBONNET_NOT_DECLARED 9u          /* an operand, or what it needs */
#define ROPEBONNET_NESTING_BROKEN 10u
#define ROPEBONNET_SWITCH_RULE_BROKEN 11u
#define ROPEBONNET_TOO_DEEP 12u             /* a 17th open block */
#define ROPEBONNET_NO_END 13u               /* file ends without END (place: file length) */

/* Refusals of what is lent to a run (to prepare: ROPEBONNET_WORK_SHORT only), after those above, with place 0. */
#define ROPEBONNET_INPUTS_SHORT 20u         /* under 4 words a register, up to the highest declared one */
#define ROPEBONNET_CONSTANTS_SHORT 21u      /* the same */
#define ROPEBONNET_REGISTERS_SHORT 22u      /* under 1,156 words */
#define ROPEBONNET_WORK_SHORT 23u           /* under 3 words an instruction */
#define ROPEBONNET_MEMORY_TOO_LONG 24u      /* over 16,384 words */

/* Refusals of a listing (by read alone, before those of a file) and of an output (by print and read, after those). */
#define ROPEBONNET_MALFORMED_LINE 30u       /* also an unknown kind or a number too large for its field (place: its
                                             * first byte in the listing) */
#define ROPEBONNET_OUTPUT_SHORT 31u         /* under what would be written (place 0) */

/* What a call answers. Words without a meaning are 0.
 *
 *   status                first                                     second
 *   ROPEBONNET_DONE       check, prepare: number of instructions    0
 *                         run: steps carried out, END among them
 *                         print, read: bytes written
 *   ROPEBONNET_HALTED     steps carried out: the budget             number of the next instruction
 *   ROPEBONNET_REFUSED    number of the refusal                     byte place in the file: the lent one, or the one
 *                                                                   that was read; of a malformed line in the listing
 *
 * A place over 4,294,967,295 in a listing is given as 4,294,967,295.
 */
struct ropebonnet_answer {
    uint32_t status;
    uint32_t first;
    uint32_t second;
};

/* A part of the caller's file: `length` bytes from byte `start`. */
struct ropebonnet_part {
    size_t start;
    size_t length;
};

/* What a run of a file needs. The first three words are what ropebonnet_check answers; of a refused file the others
 * are 0. A run that is lent at least so many words is refused for none of inputs, constants and working words; with
 * one word less of one of these, all else being enough, it is. In C++ write `struct ropebonnet_needs` for the type,
 * since the function of this name hides it.
 */
struct ropebonnet_needs {
    uint32_t status;
    uint32_t first;
    uint32_t second;
    uint32_t instructions;
    uint32_t work_words;
    uint32_t input_words;
    uint32_t constant_words;
    uint32_t outputs; /* bit i: OUT[i] is declared */
    uint32_t memory;  /* 1 if MEM is declared, else 0 */
};

/* Whether a file is a program, and of how many instructions. */
struct ropebonnet_answer ropebonnet_check(const uint8_t *file, size_t file_length);

/* Checks a file and writes its table into `work`: byte place, jump and label of each instruction. Words past the last
 * row stay. A host needs this only to look at the table: a run makes its own.
 */
struct ropebonnet_answer ropebonnet_prepare(const uint8_t *file, size_t file_length, uint32_t *work,
                                            size_t work_length);

/* Checks and prepares a file, each time and whatever stands in `work`; clears the first 1,156 register words; and
 * carries out instructions until END is done or the budget is spent. Memory is read and written by the program alone.
 *
 * Inputs and constants are only read. Whatever the program declares, the first 128 words of the inputs and the first
 * 4,096 of the constants are read, as far as so many are lent, and none past them. The program sees those of declared
 * registers alone: a direct operand that is not declared is refused, and an indirect one reads 0.
 *
 * A halted run cannot be gone on with: each run starts at the first instruction, its registers cleared. A host that
 * wants more steps runs again with a larger budget, and with memory as it was before the run that halted.
 */
struct ropebonnet_answer ropebonnet_run(const uint8_t *file, size_t file_length,
                                        const uint32_t *inputs, size_t inputs_length,
                                        const uint32_t *constants, size_t constants_length,
                                        uint32_t *registers, size_t registers_length,
                                        uint32_t *work, size_t work_length,
                                        uint32_t *memory, size_t memory_length,
                                        uint32_t budget);

/* Record n of a file, from 0, kind byte first, walking by lengths alone: the file need not be a program. The empty
 * part at the file's end if there is no such record, a record before it is unknown or cut, or the file is too long.
 */
struct ropebonnet_part ropebonnet_record(const uint8_t *file, size_t file_length, size_t n);

/* What a run of a file needs, so that a host can lend just that. */
struct ropebonnet_needs ropebonnet_needs(const uint8_t *file, size_t file_length);

/* Writes the listing of a program into `output`. One line per record: the kind, then its fields in file order, all
 * decimal, no leading zeros, single spaces, a line feed after each; no 0 byte after the last. An output of four bytes
 * for each byte of the file suffices for every program.
 */
struct ropebonnet_answer ropebonnet_print(const uint8_t *file, size_t file_length, uint8_t *output,
                                          size_t output_length);

/* Reads a listing and writes the program file that it gives into `output`; ROPEBONNET_LONGEST_FILE bytes suffice for
 * every one. A line is malformed if it is not, in the form above, the numbers of a record, each small enough for its
 * field, and so is a last line without its line feed. The listing of the file that was read is the one that was lent.
 */
struct ropebonnet_answer ropebonnet_read(const uint8_t *listing, size_t listing_length, uint8_t *output,
                                         size_t output_length);

/* The library's version and the words of a row of its table. */
uint32_t ropebonnet_version(void);
uint32_t ropebonnet_row_words(void);

#ifdef __cplusplus
}
#endif

#endif
