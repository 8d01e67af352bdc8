#include "body.h"

int32_t APART f(int32_t a) { return a + 1; }
int32_t APART g(int32_t a) { return a - 1; }

int32_t (*act)(int32_t) = f;
int32_t x;

void APART given(void)
{
    x = PINB;
    if (x == 0) act = g;
}

void APART body(void)
{
    KEPT;
    x = act(x);  // body
}

int main(void)
{
    given();
    body();
    PORTB = act(x);
    idle();
}
