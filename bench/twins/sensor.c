/* Each channel's chain is a function; values have the 10 bits of the ADC, and sums of four of them 12. */
#include "idle.h"

typedef struct { uint8_t size, place, count; uint16_t sum, window[4]; } mean;

static mean level = { .size = 4 }, light = { .size = 2 };
static bool is_light;    /* whether the conversion that runs is that of ADC1 */

/* The middle one of the last three values. */
static uint16_t median(uint16_t x)
{
    static uint16_t last, before;
    uint16_t low = last, high = before;
    if (low > high) {
        low = before;
        high = last;
    }
    before = last;
    last = x;
    return x < low ? low : x > high ? high : x;
}

static uint16_t mean_of(mean *m, uint16_t x)
{
    m->sum += x - m->window[m->place];
    m->window[m->place] = x;
    if (++m->place == m->size) m->place = 0;
    if (m->count < m->size) m->count++;
    return m->sum / m->count;
}

static void show_level(uint16_t x) { PORTB = ~(0xFF << x / 114); }

static void show_light(uint16_t x)
{
    static bool above;
    if (above ? x < 500 : x >= 600) {
        above = !above;
        PORTC = above;
    }
}

static void convert(void)
{
    ADMUX = is_light ? 0x41 : 0x40;
    ADCSRA = 0xCF;
}

ISR(ADC_vect)
{
    uint16_t value = ADC;    /* gcc reads the low byte first */
    bool was_light = is_light;
    is_light = !is_light;
    convert();
    if (was_light) show_light(mean_of(&light, value));
    else show_level(mean_of(&level, median(value)));
}

int main(void)
{
    DDRB = 0xFF;
    DDRC = 0x01;
    convert();
    idle();
}
