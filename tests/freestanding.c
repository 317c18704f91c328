/* A host without a C library: its own entry, memcpy and memset, and nothing else. It ends with what the program of
 * document 01's case 12 puts into OUT[0].x: 25.
 */
#include "ropebonnet.h"

void *memcpy(void *restrict to, const void *restrict from, size_t length)
{
    void *start = to;
    __asm__ volatile("rep movsb" : "+D"(to), "+S"(from), "+c"(length) : : "memory");
    return start;
}

void *memset(void *to, int byte, size_t length)
{
    void *start = to;
    __asm__ volatile("rep stosb" : "+D"(to), "+c"(length) : "a"(byte) : "memory");
    return start;
}

static const uint8_t program[] = {
    0x01, 0x03, 0x00, 0x00, 0x00, 0x00,                         /* declaration: OUT[0] */
    0x02, 0x19, 0, 0, 0, 0, 0, 0, 0, 0, 0, 0, 0, 0, 0, 0, 0,    /* immediate: 25 0 0 0 */
    0x10, 0x03, 0x00, 0x00, 0x01, 0x06, 0x00, 0x00, 0xE4, 0x00, /* MOV OUT[0].x, IMM[0].xyzw */
    0x89,                                                       /* END */
};

int host(void)
{
    static uint32_t registers[ROPEBONNET_REGISTER_WORDS], work[2 * ROPEBONNET_WORK_WORDS];
    static uint8_t listing[4 * sizeof program], file[sizeof program];
    struct ropebonnet_answer answer = ropebonnet_run(program, sizeof program, NULL, 0, NULL, 0, registers,
                                                     ROPEBONNET_REGISTER_WORDS, work, 6, NULL, 0, 2);
    if (answer.status != ROPEBONNET_DONE || ropebonnet_check(program, sizeof program).first != 2 ||
        ropebonnet_prepare(program, sizeof program, work, 6).first != 2 ||
        ropebonnet_needs(program, sizeof program).work_words != 6 ||
        ropebonnet_record(program, sizeof program, 0).length != 6 ||
        ropebonnet_print(program, sizeof program, listing, sizeof listing).first != 42 ||
        ropebonnet_read(listing, 42, file, sizeof file).first != sizeof file ||
        ropebonnet_version() != ROPEBONNET_VERSION || ropebonnet_row_words() != ROPEBONNET_WORK_WORDS) {
        return 1;
    }
    return (int)registers[ROPEBONNET_OUT(0)];
}

__asm__(".globl _start\n"
        "_start:\n"
        "    xor %ebp, %ebp\n"
        "    call host\n"
        "    mov %eax, %edi\n"
        "    mov $60, %eax\n"
        "    syscall\n");
