/* Two buttons and what they do: no list of objects, one function that looks at a button. */
#include "idle.h"

enum { HOLD = 4 };

typedef struct { uint8_t mask, down, changed; } button;
typedef enum { STEADY, CHANGING, PRESSED, RELEASED } look_result;

static button longer = { 0x01, 0, 0 }, clear = { 0x02, 0, 0 };
static uint8_t left = HOLD, size;

static look_result look(button *b, uint8_t pins)
{
    uint8_t low = (pins & b->mask) == 0;
    if (low == b->down) {
        b->changed = 0;
        return STEADY;
    }
    if (++b->changed < 3) return CHANGING;
    b->down = low;
    b->changed = 0;
    return low ? PRESSED : RELEASED;
}

static void show(void) { PORTB = ~(0xFF << size); }

static void lengthen(void)
{
    if (size < 8) size++;
    show();
}

ISR(TIMER0_COMP_vect)
{
    uint8_t pins = PIND;
    look_result seen = look(&longer, pins);
    if (seen == PRESSED) {
        lengthen();
    } else if (seen == STEADY) {
        if (!longer.down) {
            left = HOLD;
        } else if (--left == 0) {
            left = HOLD;
            lengthen();
        }
    }
    if (look(&clear, pins) == PRESSED) {
        size = 0;
        show();
    }
}

int main(void)
{
    DDRB = 0xFF;
    PORTD = 0x03;
    OCR0 = 0x9B;
    TCCR0 = 0x0F;
    TIMSK = 0x02;
    idle();
}
