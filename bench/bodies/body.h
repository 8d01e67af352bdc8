/* What the twins of the bodies share. A body is the lines that end with the word body behind two slashes, in a text and in its twin. It is a function of
   its own that is not inlined, and what it works on is set from a device register before it and shown behind it, so that neither compiler knows its values. */
#include "../twins/idle.h"

#define APART __attribute__((noinline))
#define KEPT __asm__ volatile ("")    /* a call of a function without effects would be gone */

/* How a program ends at an exception. */
void __attribute__((noinline, noreturn)) stop(uint8_t code)
{
    cli();
    __asm__ volatile ("mov r24, %0\n1: rjmp 1b" : : "r" (code) : "r24");
    __builtin_unreachable();
}
