/* Files of the machine that runs the emulator, by semihosting. Anything that fails ends the program with status 1. */
#ifndef SEMIHOSTING_H
#define SEMIHOSTING_H

/* Reads as much as fits and is there, and returns how much. */
unsigned read_file(const char *name, void *bytes, unsigned length);

void write_file(const char *name, const void *bytes, unsigned length);

_Noreturn void leave(int failed);

#endif
