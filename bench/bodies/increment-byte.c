#include "body.h"

uint8_t x;

void APART given(void) { x = PINB; }

void APART body(void)
{
    KEPT;
    x = x + 1;  // body
}

int main(void)
{
    given();
    body();
    PORTB = x;
    idle();
}
