/* Start-up of a Cortex-M: the vectors, memory as C wants it, main. Any other exception stops the program. */
#include <stdlib.h>

extern unsigned stack_top, data_start, data_end, data_kept, bss_start, bss_end;
void initialise_monitor_handles(void); /* newlib's, for printing by semihosting; a real board has its own */
int main(void);

static void stopped(void) {
    for (;;) {
    }
}

void start(void) {
    const unsigned *from = &data_kept;
    for (unsigned *to = &data_start; to < &data_end; to++) {
        *to = *from++;
    }
    for (unsigned *to = &bss_start; to < &bss_end; to++) {
        *to = 0;
    }
    initialise_monitor_handles();
    exit(main());
}

/* The stack, and the fifteen exceptions that every Cortex-M has, reset being the first. */
__attribute__((section(".vectors"), used)) const struct {
    unsigned *stack;
    void (*exceptions[15])(void);
} vectors = {&stack_top, {start, stopped, stopped, stopped, stopped, stopped, stopped, stopped, stopped, stopped,
                          stopped, stopped, stopped, stopped, stopped}};
