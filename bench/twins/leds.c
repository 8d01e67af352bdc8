#include "idle.h"

int main(void)
{
    DDRB = 0xFF;
    DDRF = 0xFF;
    PORTB = 0x55;
    PORTF = 0xF0;
    idle();
}
