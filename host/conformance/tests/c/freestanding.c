/* Row 12 without a C library; x86-64 Linux. Ends with status 0 if the answer is right. */
#include "tigbayon.h"

void *memcpy(void *to, const void *from, size_t count)
{
    size_t i;
    for (i = 0; i < count; i++) {
        ((unsigned char *)to)[i] = ((const unsigned char *)from)[i];
    }
    return to;
}

void *memset(void *to, int byte, size_t count)
{
    size_t i;
    for (i = 0; i < count; i++) {
        ((unsigned char *)to)[i] = (unsigned char)byte;
    }
    return to;
}

static void end(int status)
{
    __asm__ volatile("syscall" : : "a"(60), "D"(status) : "rcx", "r11", "memory");
}

/* A program begins with a stack that is not aligned as in a call. */
__attribute__((force_align_arg_pointer)) void _start(void)
{
    TbGathered colour = tb_gather(64, 0x0FFF0FFF0FFF0FFF, 0x0123045607890ABC);

    end(colour.refusal != TB_CARRIED_OUT || colour.count != 48 || colour.word != 0x123456789ABC);
    for (;;) {
    }
}
