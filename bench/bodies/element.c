#include "body.h"

uint8_t a[8], b[8];
int32_t i;

void APART given(void)
{
    i = PINB;
    a[1] = PINB;
    b[1] = PINB;
}

void APART body(void)
{
    KEPT;
    if ((uint32_t) i >= sizeof a) stop(2);  // body
    a[i] = b[i];  // body
}

int main(void)
{
    given();
    body();
    PORTB = a[1];
    PORTB = b[1];
    PORTB = i;
    idle();
}
