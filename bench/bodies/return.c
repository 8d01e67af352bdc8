#include "body.h"

int32_t x, y;

int32_t APART f(int32_t a) { return a + 1; }
int32_t APART g(int32_t a) { return a - 1; }

void APART given(void)
{
    x = f(PINB);
    y = g(PINB);
}

int32_t APART body(void)
{
    KEPT;
    return f(x) + g(y);  // body
}

int main(void)
{
    given();
    PORTB = body();
    PORTB = x + y;
    idle();
}
