/* start.c - what runs on the board before main: the vectors, C's memory, and the C library's console, which the emulator
 * serves by semihosting. */
#include <stdint.h>
#include <stdlib.h>
#include <unistd.h>

extern uint32_t data_source[], data_start[], data_end[], bss_start[], bss_end[], stack_top[]; /* link.ld */
int main(void);
void initialise_monitor_handles(void);

void reset(void);
void _init(void);
void _fini(void);

void reset(void)
{
    for (uint32_t *from = data_source, *to = data_start; to < data_end;)
        *to++ = *from++;
    for (uint32_t *at = bss_start; at < bss_end;)
        *at++ = 0;
    initialise_monitor_handles();
    exit(main());
}

/* A fault ends the program. */
static void fault(void)
{
    _exit(1);
}

/* The stack, then the handlers of reset, of the unmaskable interrupt and of a fault. */
__attribute__((section(".vectors"), used)) static void *const vectors[] = {stack_top, reset, fault, fault};

/* The C library calls these at exit. */
void _init(void)
{
}

void _fini(void)
{
}
