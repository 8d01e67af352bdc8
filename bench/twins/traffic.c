/* The states as a table in flash, with two pictures each that take turns. A time of 255 seconds stands for all longer ones: nothing asks for more. */
#include "idle.h"

enum { DRIVE, SLOW, HALT, WALK, HURRY, READY, STATES };

static const struct { uint8_t lamps, other, seconds; } states[STATES] PROGMEM = {
    [DRIVE] = { 0x0C, 0x0C, 5 },
    [SLOW] = { 0x0A, 0x0A, 2 },
    [HALT] = { 0x09, 0x09, 1 },
    [WALK] = { 0x11, 0x11, 4 },
    [HURRY] = { 0x11, 0x01, 3 },
    [READY] = { 0x0B, 0x0B, 1 },
};

static uint8_t now, time, lit;
static bool wanted;

static void show(void)
{
    uint8_t picture = pgm_read_byte(time & 1 ? &states[now].other : &states[now].lamps);
    if (picture == lit) return;
    lit = picture;
    PORTB = lit;
}

ISR(INT0_vect) { wanted = true; }

ISR(TIMER1_COMPA_vect)
{
    if (time < 255) time++;
    if (time >= pgm_read_byte(&states[now].seconds) && (now != DRIVE || wanted)) {
        now = now == READY ? DRIVE : now + 1;
        time = 0;
        if (now == WALK) wanted = false;
    }
    show();
}

int main(void)
{
    DDRB = 0x1F;
    PORTD = 0x01;
    EICRA = 0x02;
    EIMSK = 0x01;
    OCR1A = 0x1E83;
    TCCR1B = 0x0D;
    TIMSK = 0x10;
    show();
    idle();
}
