/* Runs an image on simavr's ATmega128 and prints its device trace, and on standard error how many bytes its stack took at most (tools/try-simavr asks for both).
   The processor is simavr's; its device registers are taken away, and those of docs/MACHINE.md stand in their place: a script gives the reads, and the interrupts
   come where the program sleeps. */
#include <sim_avr.h>
#include <sim_core.h>
#include <sim_hex.h>
#include <stdio.h>
#include <stdlib.h>
#include <string.h>

enum { RAMPZ = 0x5B, SRAM = 0x100, ITEMS = 1 << 20, OUT_SPH = 0xBE0E, OUT_SPL = 0xBE0D, OUT_MASK = 0xFE0F };

static uint8_t reads[ITEMS], interrupts[ITEMS];
static int read_count, interrupt_count, next_read, next_interrupt;
static int is_set, lowest = 0x10FF; /* whether both bytes of SP were written, and its lowest value since */

static void end(const char *how, int status)
{
    puts(how);
    exit(status);
}

static uint8_t on_read(avr_t *avr, avr_io_addr_t address, void *unused)
{
    (void) avr, (void) unused;
    if (next_read == read_count) {
        printf("wants %02x\n", address);
        exit(8);
    }
    printf("r %02x %02x\n", address, reads[next_read]);
    return reads[next_read++];
}

static void on_write(avr_t *avr, avr_io_addr_t address, uint8_t value, void *unused)
{
    (void) avr, (void) unused;
    printf("w %02x %02x\n", address, value);
}

static void no_log(avr_t *avr, const int level, const char *format, va_list words)
{
    (void) avr, (void) level, (void) format, (void) words;
}

static void take_script(const char *name)
{
    static char line[1 << 20];
    FILE *file = fopen(name, "r");
    if (!file) { perror(name); exit(3); }
    while (fgets(line, sizeof line, file)) {
        for (char *item = strtok(line + (*line != 0), " \r\n"); item && (*line == 'r' || *line == 'i'); item = strtok(NULL, " \r\n")) {
            if (*line == 'r' && read_count < ITEMS) reads[read_count++] = strtol(item, NULL, 16);
            if (*line == 'i' && interrupt_count < ITEMS) interrupts[interrupt_count++] = atoi(item);
        }
    }
    fclose(file);
}

static avr_t *made(const char *name)
{
    avr_t *avr = avr_make_mcu_by_name("atmega128");
    ihex_chunk_p parts;
    int count = read_ihex_chunks(name, &parts);
    if (!avr || avr_init(avr) || count <= 0) { fprintf(stderr, "%s: no image\n", name); exit(11); }
    for (int i = 0; i < count; i++) avr_loadcode(avr, parts[i].data, parts[i].size, parts[i].baseaddr);
    /* as at power-on: SRAM and the registers hold anything */
    memset(avr->data, 0xA5, 32);
    memset(avr->data + SRAM, 0xA5, avr->ramend + 1 - SRAM);
    avr->data[R_SPL] = avr->data[R_SPH] = 0;
    for (int address = 0x20; address < SRAM; address++) {
        int io = AVR_DATA_TO_IO(address), is_device = address != RAMPZ && address != R_SPL && address != R_SPH && address != R_SREG;
        avr->io[io].irq = NULL;
        avr->io[io].r.c = is_device ? on_read : NULL;
        avr->io[io].w.c = is_device ? on_write : NULL;
    }
    return avr;
}

static uint16_t stack_pointer(const avr_t *avr) { return avr->data[R_SPL] | avr->data[R_SPH] << 8; }

/* Looks at SP behind an instruction, and behind the push of an interrupt. Between its two bytes SP is none. */
static void look_at_stack(const avr_t *avr, uint16_t code)
{
    if ((code & OUT_MASK) == OUT_SPH) is_set = 0;
    if ((code & OUT_MASK) == OUT_SPL) is_set = 1;
    if (is_set && stack_pointer(avr) < lowest) lowest = stack_pointer(avr);
}

static void tell_stack(void) { fprintf(stderr, "stack %d\n", 0x10FF - lowest); }

/* Takes the next interrupt at a SLEEP, as the datasheet says: the program counter is pushed, in words, and I is cleared. */
static void interrupt(avr_t *avr)
{
    if (next_interrupt == interrupt_count) end("idle", 0);
    uint8_t vector = interrupts[next_interrupt++];
    uint16_t sp = stack_pointer(avr), back = avr->pc / 2;
    printf("i %d\n", vector);
    avr->data[sp--] = back;
    avr->data[sp--] = back >> 8;
    avr->data[R_SPL] = sp;
    avr->data[R_SPH] = sp >> 8;
    avr->sreg[S_I] = 0;
    avr->pc = 4 * vector;
    avr->state = cpu_Running;
}

int main(int count, char **words)
{
    avr_global_logger_set(no_log);
    if (count != 4) { fprintf(stderr, "simavr-trace HEX SCRIPT STEPS\n"); return 2; }
    avr_t *avr = made(words[1]);
    take_script(words[2]);
    atexit(tell_stack);
    for (long steps = atol(words[3]); steps > 0; steps--) {
        uint16_t code = avr->flash[avr->pc] | avr->flash[avr->pc + 1] << 8;
        if (code == 0xCFFF && !avr->sreg[S_I]) {
            printf("stop %d\n", avr->data[24]);
            return 7;
        }
        avr->run_cycle_count = 0; /* one instruction and no more */
        avr->pc = avr_run_one(avr);
        if (avr->state == cpu_Crashed || avr->state == cpu_Stopped) {
            printf("bad %04x %04x\n", avr->pc / 2, code);
            return 13;
        }
        if (avr->state == cpu_Sleeping) {
            if (avr->sreg[S_I]) interrupt(avr);
            else avr->state = cpu_Running;
        }
        look_at_stack(avr, code);
    }
    end("budget", 9);
}
