#include "body.h"

int32_t x;

void APART given(void) { x = PINB; }

void APART body(void)
{
    KEPT;
    x = 5;  // body
}

int main(void)
{
    given();
    body();
    PORTB = x;
    idle();
}
