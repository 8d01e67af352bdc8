/* The ring as static variables, the texts and the table of commands in flash. Numbers wrap at 32 bits, as in the text. */
#include "idle.h"

enum { SIZE = 64, LINE = 16, QUIET = 0x98, BUSY = 0xB8 };

static uint8_t bytes[SIZE], first, used, lit;
static char line[LINE];
static uint8_t length;

static void send(uint8_t b)
{
    if (used == SIZE) return;
    bytes[(first + used) % SIZE] = b;
    if (++used == 1) UCSR0B = BUSY;
}

static void print(const char *text)
{
    char c;
    while ((c = pgm_read_byte(text++))) send(c);
}

static void end_line(void) { print(PSTR("\r\n")); }

static void set(uint8_t bits)
{
    lit = bits;
    PORTB = lit;
}

static uint8_t mask(uint32_t n) { return n < 8 ? 1 << n : 0; }

static void on(uint32_t n) { set(lit | mask(n)); }
static void off(uint32_t n) { set(lit & ~mask(n)); }

static void send_digit(uint8_t d) { send(d < 10 ? '0' + d : 'a' - 10 + d); }

static void get(uint32_t n)
{
    send_digit(lit >> 4);
    send_digit(lit & 0x0F);
    end_line();
}

static void help(uint32_t n);

static const struct { char name[5]; void (*act)(uint32_t n); } commands[] PROGMEM = {
    { "on", on }, { "off", off }, { "get", get }, { "help", help }
};

enum { COMMANDS = sizeof commands / sizeof commands[0] };

static void help(uint32_t n)
{
    for (uint8_t c = 0; c < COMMANDS; c++) {
        print(commands[c].name);
        send(' ');
    }
    end_line();
}

/* The number whose digits begin at a place of the line, or one that no LED has. */
static uint32_t number_from(uint8_t place)
{
    if (place >= length) return -1;
    uint32_t n = 0;
    for (; place < length; place++) {
        uint8_t digit = line[place] - '0';
        if (digit > 9) return -1;
        n = n * 10 + digit;
    }
    return n;
}

static bool is_named(const char *name, uint8_t size)
{
    for (uint8_t i = 0; i < size; i++) {
        char c = pgm_read_byte(&name[i]);
        if (c == 0 || c != line[i]) return false;
    }
    return pgm_read_byte(&name[size]) == 0;
}

static void obey(void)
{
    uint8_t size = 0;
    while (size < length && line[size] != ' ') size++;
    if (size == 0) return;
    for (uint8_t c = 0; c < COMMANDS; c++) {
        if (is_named(commands[c].name, size)) {
            void (*act)(uint32_t n) = (void (*)(uint32_t)) pgm_read_word(&commands[c].act);
            act(number_from(size + 1));
            return;
        }
    }
    print(PSTR("?\r\n"));
}

ISR(USART0_RX_vect)
{
    char b = UDR0;
    if (b == '\r') {
        end_line();
        obey();
        length = 0;
        print(PSTR("> "));
    } else if (b == '\b') {
        if (length > 0) {
            length--;
            print(PSTR("\b \b"));
        }
    } else if (length < LINE) {
        line[length++] = b;
        send(b);
    }
}

ISR(USART0_UDRE_vect)
{
    if (used > 0) {
        UDR0 = bytes[first];
        first = (first + 1) % SIZE;
        used--;
    }
    if (used == 0) UCSR0B = QUIET;
}

int main(void)
{
    DDRB = 0xFF;
    UBRR0H = 0x00;
    UBRR0L = 0x33;
    UCSR0C = 0x06;
    UCSR0B = QUIET;
    print(PSTR("> "));
    idle();
}
