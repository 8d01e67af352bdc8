#include "idle.h"

enum { LED = 0x01, TOP = 3905 };

ISR(TIMER1_COMPA_vect)
{
    static uint8_t lit;
    lit ^= LED;
    PORTB = lit;
}

int main(void)
{
    DDRB = LED;
    OCR1A = TOP;              /* gcc writes the high byte first */
    TCCR1B = 0x0D;
    TIMSK = 0x10;
    idle();
}
