/* What all twins share. A twin does what the text of the same name does, as C for the ATmega128 is written by hand: the same device accesses in the same order,
   the same handlers, and sleep in between. What C would not have, objects and checks that never fail, it leaves out. */
#include <avr/interrupt.h>
#include <avr/io.h>
#include <avr/pgmspace.h>
#include <avr/sleep.h>
#include <stdbool.h>
#include <stdint.h>

/* An interrupt without a handler returns at once; avr-libc would start the program again. */
EMPTY_INTERRUPT(BADISR_vect)

/* What main ends with: handlers run while the program sleeps. The sleep mode is left as it is. */
static inline void __attribute__((noreturn)) idle(void)
{
    sei();
    for (;;) sleep_cpu();
}
