#include <stdint.h>
#include <stdio.h>
#include <stdlib.h>
#include <string.h>
/* A plain interpreter of the same steps, for bench/run.sh: values that wait, with tags that are looked at; a tree of code; a switch for the steps. */
enum kind { ROW, DO, LOOP };
enum step { PUT, LOCAL, SET_LOCAL, LESS, PLUS };
enum tag { INT = 1, BOOL };
typedef struct { uint8_t tag; int32_t number; } value;
typedef struct code { enum kind kind; struct code *parts; int count; enum step step; int32_t number; } code;
static value values[1024], locals[64];
static int waiting;
static uint32_t ticks;
static int run(const code *c)
{
    switch (c->kind) {
    case ROW:
        for (int i = 0; i < c->count; i++) { int why = run(&c->parts[i]); if (why) return why; }
        return 0;
    case LOOP:
        for (;;) {
            int why = run(&c->parts[0]);
            if (why) return why;
            if (waiting < 1 || values[waiting - 1].tag != BOOL) return 2;
            if (!values[--waiting].number) return 0;
            if (!ticks) return 1;
            ticks--;
            if ((why = run(&c->parts[1]))) return why;
        }
    case DO:
        switch (c->step) {
        case PUT: if (waiting == 1024) return 3; values[waiting++] = (value){ INT, c->number }; return 0;
        case LOCAL: if (waiting == 1024) return 3; values[waiting++] = locals[c->number]; return 0;
        case SET_LOCAL: if (waiting < 1 || values[waiting - 1].tag != INT) return 2; locals[c->number] = values[--waiting]; return 0;
        case LESS: case PLUS: {
            if (waiting < 2) return 2;
            value y = values[--waiting], x = values[--waiting];
            if (x.tag != INT || y.tag != INT) return 2;
            values[waiting++] = c->step == PLUS ? (value){ INT, (int32_t)((uint32_t)x.number + (uint32_t)y.number) } : (value){ BOOL, x.number < y.number };
            return 0; }
        }
    }
    return 2;
}
int main(int argc, char **argv)
{
    int32_t turns = argc > 1 ? atoi(argv[1]) : 30000000;
    code test[3] = { { DO, 0, 0, LOCAL, 0 }, { DO, 0, 0, PUT, turns }, { DO, 0, 0, LESS, 0 } };
    code body[4] = { { DO, 0, 0, LOCAL, 0 }, { DO, 0, 0, PUT, 1 }, { DO, 0, 0, PLUS, 0 }, { DO, 0, 0, SET_LOCAL, 0 } };
    code parts[2] = { { ROW, test, 3, PUT, 0 }, { ROW, body, 4, PUT, 0 } };
    code loop = { LOOP, parts, 2, PUT, 0 };
    locals[0] = (value){ INT, 0 };
    ticks = 1000000000;
    int why = run(&loop);
    printf("%d %d\n", why, locals[0].number);
    return why;
}
