/* The program for the device: reads the file `input`, calls the library, and writes the files `results` and `cost`. */
#include "call.h"
#include "semihosting.h"

/* A timer of the board, 25 MHz, counting down. */
struct timer {
    uint32_t control, value, reload, status;
};
#define TIMER ((volatile struct timer *)0x40000000)

#define PAINT 0xC0FFEE5A
extern volatile uint32_t stack_bottom[];
extern uint32_t stack_top[];

/* What a call of `check` costs. */
static struct {
    uint32_t ticks;
    uint32_t stack; /* bytes below the caller's frame that were written, the arguments among them */
} cost;

static void measure(void)
{
    volatile uint32_t *top, *word;
    __asm__ volatile("mov %0, sp" : "=r"(top));
    for (word = stack_bottom; word < top; word++)
        *word = PAINT;

    TIMER->reload = TIMER->value = UINT32_MAX;
    TIMER->control = 1;
    uint32_t start = TIMER->value;
    check();
    cost.ticks = start - TIMER->value;

    for (word = stack_bottom; *word == PAINT; word++)
        ;
    cost.stack = (top - word) * sizeof *word;
}

int main(void)
{
    prepare(read_file("input", input, sizeof input));
    measure();
    check_each();
    widen_each();
    write_file("results", &results, sizeof results);
    write_file("cost", &cost, sizeof cost);
    leave(stack_bottom[0] != PAINT);
}

static void fault(void)
{
    leave(1);
}

/* Where the processor starts, with an empty stack. The emulator has loaded all data by then. */
__attribute__((section(".vectors"), used)) static const void *const vectors[16] = {
    stack_top, main, fault, fault, fault, fault, fault,
};
