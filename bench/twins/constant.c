#include "idle.h"

int main(void)
{
    PORTB = 0x05;
    idle();
}
