#include "body.h"

int32_t x;

int32_t APART f(int32_t a, int32_t b) { return a + b; }
int32_t APART g(int32_t a, int32_t b) { return a - b; }
int32_t APART h(int32_t a, int32_t b) { return b - a; }

void APART given(void)
{
    x = f(PINB, 1);
    x = g(x, 2);
    x = h(x, 3);
}

void APART body(void)
{
    KEPT;
    x = f(g(h(x, 1), 2), x);  // body
}

int main(void)
{
    given();
    body();
    PORTB = x;
    idle();
}
