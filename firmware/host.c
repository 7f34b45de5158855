/* The results of the library for x86-64: input on standard input, results on standard output. */
#include "call.h"

#include <stdio.h>

int main(void)
{
    prepare(fread(input, 1, sizeof input, stdin));
    check();
    check_each();
    widen_each();
    return fwrite(&results, sizeof results, 1, stdout) == 1 ? 0 : 1;
}
