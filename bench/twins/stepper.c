/* Tables in flash, written out. Positions have 32 bits as in the text, since buttons may send a motor as far; all else fits a byte. */
#include "idle.h"

enum { FASTEST = 3 };

static const uint8_t coils[8] PROGMEM = { 0x1, 0x3, 0x2, 0x6, 0x4, 0xC, 0x8, 0x9 };
static const uint8_t pauses[FASTEST + 1] PROGMEM = { 4, 3, 2, 1 };

typedef struct { int32_t at, to; uint8_t speed, left; } motor;

static motor table, arm = { .to = 2 };
static uint8_t shown;

/* Whether the motor stands where it was sent to. */
static bool step(motor *m)
{
    if (m->left > 0) {
        m->left--;
        return false;
    }
    if (m->at == m->to) {
        m->speed = 0;
        return true;
    }
    int32_t rest = m->to - m->at;
    if (rest > 0) {
        m->at++;
    } else {
        m->at--;
        rest = -rest;
    }
    if (m->speed < FASTEST) m->speed++;
    if (m->speed > rest - 1) m->speed = rest - 1;
    m->left = pgm_read_byte(&pauses[m->speed]) - 1;
    return false;
}

static uint8_t coils_of(const motor *m) { return pgm_read_byte(&coils[m->at & 7]); }

static void show(void)
{
    uint8_t both = coils_of(&arm) << 4 | coils_of(&table);
    if (both == shown) return;
    shown = both;
    PORTB = both;
}

ISR(INT0_vect) { table.to += 4; }
ISR(INT1_vect) { table.to -= 4; }

ISR(TIMER0_COMP_vect)
{
    step(&table);
    if (step(&arm)) arm.to = -arm.to;
    show();
}

int main(void)
{
    DDRB = 0xFF;
    PORTD = 0x03;
    EICRA = 0x0A;
    EIMSK = 0x03;
    OCR0 = 0x7C;
    TCCR0 = 0x0C;
    TIMSK = 0x02;
    show();
    idle();
}
