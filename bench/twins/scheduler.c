/* The tasks as a table with a function each; the button starts the third task by name. */
#include "idle.h"

enum { HEART = 0x01, STAIRS = 0x02, BUTTON = 0x01, LIGHT_TIME = 6 };

static uint8_t lit;

static void set(uint8_t lamps)
{
    lit = lamps;
    PORTB = lit;
}

static void beat(void) { set(lit ^ HEART); }
static void watch(void);
static void darken(void) { set(lit & ~STAIRS); }

/* A task with the period 0 rests behind a run, and one with 0 ticks left does. */
static struct task { uint8_t period, left; void (*run)(void); } tasks[] = { { 5, 5, beat }, { 2, 2, watch }, { 0, 0, darken } };

static void watch(void)
{
    static bool down;
    bool low = (PIND & BUTTON) == 0;
    if (low && !down) {
        tasks[2].left = LIGHT_TIME;
        set(lit | STAIRS);
    }
    down = low;
}

ISR(TIMER0_COMP_vect)
{
    for (uint8_t i = 0; i < sizeof tasks / sizeof tasks[0]; i++) {
        struct task *t = &tasks[i];
        if (t->left > 0 && --t->left == 0) {
            t->left = t->period;
            t->run();
        }
    }
}

int main(void)
{
    DDRB = 0x03;
    PORTD = 0x01;
    OCR0 = 0x4D;
    TCCR0 = 0x0F;
    TIMSK = 0x02;
    idle();
}
