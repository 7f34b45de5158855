#include "semihosting.h"

#include <stdint.h>
#include <string.h>

/* Operations and modes by their numbers in Arm's "Semihosting for AArch32 and AArch64". */
enum { SYS_OPEN = 0x01, SYS_CLOSE = 0x02, SYS_WRITE = 0x05, SYS_READ = 0x06, SYS_EXIT = 0x18 };
enum { READ_BINARY = 1, WRITE_BINARY = 5 };
enum { RUN_TIME_ERROR = 0x20023, APPLICATION_EXIT = 0x20026 };

static int ask(int operation, uintptr_t argument)
{
    register int r0 __asm__("r0") = operation;
    register uintptr_t r1 __asm__("r1") = argument;
    __asm__ volatile("bkpt 0xAB" : "+r"(r0) : "r"(r1) : "memory");
    return r0;
}

_Noreturn void leave(int failed)
{
    for (;;)
        ask(SYS_EXIT, failed ? RUN_TIME_ERROR : APPLICATION_EXIT);
}

/* Transfers a whole file, and returns how many bytes were not. */
static unsigned transfer(int operation, int mode, const char *name, const void *bytes, unsigned length)
{
    uintptr_t opened[] = {(uintptr_t)name, mode, strlen(name)};
    int file = ask(SYS_OPEN, (uintptr_t)opened);
    if (file < 0)
        leave(1);
    uintptr_t block[] = {file, (uintptr_t)bytes, length};
    unsigned left = ask(operation, (uintptr_t)block);
    ask(SYS_CLOSE, (uintptr_t)block);
    return left;
}

unsigned read_file(const char *name, void *bytes, unsigned length)
{
    return length - transfer(SYS_READ, READ_BINARY, name, bytes, length);
}

void write_file(const char *name, const void *bytes, unsigned length)
{
    if (transfer(SYS_WRITE, WRITE_BINARY, name, bytes, length) != 0)
        leave(1);
}
