/* What talk.h promises. Keys that interrupted() finds wait in a ring. */
#include "talk.h"
#include "machine.h"

#define RING 256
#define BELL 7
#define BACKSPACE 8
#define CONTROL_U 025
#define RUBOUT 0177

static byte ring[RING];
static int16 first, count;
static uint16 mixed;

/* Waits until a key is there, in start.s or host.c. */
void wait_key(void);


/* The oldest key of the ring. */
static int16 from_ring(void) {
    int16 found = ring[first];
    first = (int16)((first + 1) % RING);
    count--;
    return found;
}

/* The key that is there. */
static int16 taken(void) {
    int16 typed = key();
    mixed = (uint16)(mixed * 33u + (uint16)typed);
    return typed;
}

int16 next_key(void) {
    if (count) return from_ring();
    wait_key();
    return taken();
}

int16 any_key(void) {
    if (count) return from_ring();
    mixed++;
    return (int16)(has_key() ? taken() : 0);
}

int16 interrupted(void) {
    int16 typed;
    mixed++;
    if (!has_key()) return 0;
    typed = taken();
    if (typed == CONTROL_C) {
        count = 0;
        return 1;
    }
    if (count == RING - 1) put(BELL);
    else ring[(first + count++) % RING] = (byte)typed;
    return 0;
}

static void rub_out(void) {
    text("\b \b");
}

int16 read_line(char *to, int16 room) {
    int16 length = 0;
    for (;;) {
        int16 typed = next_key();
        switch (typed) {
        case '\r':
        case '\n':
            put('\n');
            to[length] = 0;
            return length;
        case CONTROL_C:
            text("^C\n");
            to[0] = 0;
            return -1;
        case RUBOUT:
        case BACKSPACE:
            if (!length) continue;
            length--;
            rub_out();
            continue;
        case CONTROL_U:
            for (; length; length--) rub_out();
            continue;
        }
        if (typed == '\t') typed = ' ';
        if (typed < ' ') continue;
        if (length == room - 1) {
            put(BELL);
            continue;
        }
        to[length++] = (char)typed;
        put((char)typed);
    }
}

int16 read_number(const char **at, int16 *n) {
    const char *from = *at;
    int16 minus = 0;
    int32 found = 0;
    while (*from == ' ') from++;
    if (*from == '-' || *from == '+') minus = *from++ == '-';
    if (*from < '0' || *from > '9') return 0;
    while (*from >= '0' && *from <= '9') {
        found = found * 10 + (*from++ - '0');
        if (found > 32768) return 0;
    }
    if (minus) found = -found;
    if (found > 32767) return 0;
    *n = (int16)found;
    *at = from;
    return 1;
}

uint16 keys_mixed(void) {
    return mixed;
}

char capital(char c) {
    return (char)(c >= 'a' && c <= 'z' ? c - 'a' + 'A' : c);
}
