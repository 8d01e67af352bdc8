#include "body.h"

int32_t x, y;
uint8_t r;

void APART given(void)
{
    x = PINB;
    y = PINB;
    r = PINB;
}

void APART body(void)
{
    KEPT;
    r = x + y;  // body
}

int main(void)
{
    given();
    body();
    PORTB = r;
    PORTB = x - y;
    idle();
}
