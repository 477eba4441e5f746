#include "shown.h"

#include <string.h>

enum { ESCAPE = 033, LONGEST = 32 };
enum verdict { ALONE, GOES_ON, WHOLE };

static uint8_t held[LONGEST + 1];
static size_t length;

static int is_printing(uint8_t byte) { return byte >= 040 && byte <= 0176; }

static int is_in(const char *letters, uint8_t byte) { return byte != 0 && strchr(letters, byte) != NULL; }

/* A sequence ESC [: numbers of three digits at most, and a letter; h and l are for the modes of a screen alone. */
static enum verdict in_bracket(void) {
    size_t at = 2, digits = 0;
    int is_private = length > 2 && held[2] == '?', number = 0, are_modes = 1;
    for (at += (size_t)is_private; at < length; at++) {
        if (held[at] >= '0' && held[at] <= '9') {
            if (number >= 100 || ++digits > LONGEST) return ALONE;
            number = 10 * number + held[at] - '0';
            continue;
        }
        are_modes &= is_private ? (number >= 1 && number <= 8) || number == 25 : number == 4 || number == 20;
        if (held[at] == 'h' || held[at] == 'l') return are_modes ? WHOLE : ALONE;
        if (held[at] != ';') return !is_private && is_in("@ABCDHJKLMPfgmr", held[at]) ? WHOLE : ALONE;
        number = 0;
    }
    return GOES_ON;
}

/* What is held, the last byte included, is of a sequence. */
static enum verdict judge(void) {
    uint8_t last = held[length - 1];
    if (length == 1) return GOES_ON;
    if (length > LONGEST) return ALONE;
    if (length == 2) return is_in("#()Y[", last) ? GOES_ON : is_in("78<=>ABCDEFGHIJKM", last) ? WHOLE : ALONE;
    switch (held[1]) {
    case '#': return is_in("34568", last) ? WHOLE : ALONE;
    case '[': return in_bracket();
    case 'Y': return !is_printing(last) ? ALONE : length == 3 ? GOES_ON : WHOLE;
    default: return is_in("012AB", last) ? WHOLE : ALONE;
    }
}

static uint8_t *readable(uint8_t byte, uint8_t *to) {
    static const char HEX[] = "0123456789ABCDEF";
    if (is_printing(byte)) return *to = byte, to + 1;
    to[0] = '<', to[1] = (uint8_t)HEX[byte >> 4], to[2] = (uint8_t)HEX[byte & 15], to[3] = '>';
    return to + 4;
}

size_t pass(const uint8_t *bytes, size_t count, uint8_t *row) {
    uint8_t *to = row;
    size_t at, shown;
    for (at = 0; at < count; at++) {
        if (length == 0 && bytes[at] != ESCAPE) {
            to = is_in("\a\b\t\n\v\f\r\016\017\177", bytes[at]) || bytes[at] == 0 ? (*to = bytes[at], to + 1) : readable(bytes[at], to);
            continue;
        }
        held[length++] = bytes[at];
        switch (judge()) {
        case GOES_ON: break;
        case WHOLE:
            memcpy(to, held, length);
            to += length;
            length = 0;
            break;
        case ALONE: /* the sequence's bytes are shown, and the last one is looked at again, by itself */
            for (shown = 0; shown + 1 < length; shown++) to = readable(held[shown], to);
            length = 0;
            at--;
        }
    }
    return (size_t)(to - row);
}
