#include "body.h"

int32_t a, b, c;
uint8_t x;

void APART given(void)
{
    a = PINB;
    b = PINB;
    c = PINB;
    x = PINB;
}

void APART body(void)
{
    KEPT;
    if (a < b && c != 0) x = 0x01;  // body
}

int main(void)
{
    given();
    body();
    PORTB = x;
    PORTB = a + b + c;
    idle();
}
