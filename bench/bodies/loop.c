#include "body.h"

void APART body(void)
{
    KEPT;
    for (uint8_t i = 0; i < 100; i++) __asm__ volatile ("");  // body
}

int main(void)
{
    body();
    PORTB = 0x01;
    idle();
}
