#include "body.h"

uint8_t a[8];
int32_t sum;

void APART given(void)
{
    a[7] = PINB;
    sum = PINB;
}

void APART body(void)
{
    KEPT;
    for (uint8_t i = 0; i < sizeof a; i++) sum += a[i];  // body
}

int main(void)
{
    given();
    body();
    PORTB = sum;
    PORTB = a[7];
    idle();
}
