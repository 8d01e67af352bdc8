/* One ring, so no objects: three static variables. */
#include "idle.h"

enum { SIZE = 8, QUIET = 0x98, BUSY = 0xB8 };

static uint8_t bytes[SIZE], first, used, lost;

ISR(USART0_RX_vect)
{
    uint8_t b = UDR0;
    if (used == SIZE) {
        PORTB = ++lost;
        return;
    }
    bytes[(first + used) % SIZE] = b;
    if (++used == 1) UCSR0B = BUSY;
}

ISR(USART0_UDRE_vect)
{
    if (used > 0) {
        UDR0 = bytes[first];
        first = (first + 1) % SIZE;
        used--;
    }
    if (used == 0) UCSR0B = QUIET;
}

int main(void)
{
    DDRB = 0xFF;
    UBRR0H = 0x00;
    UBRR0L = 0x33;
    UCSR0C = 0x06;
    UCSR0B = QUIET;
    idle();
}
