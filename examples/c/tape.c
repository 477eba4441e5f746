/* tape TAPE PACK: loads an absolute tape, runs it, prints what it typed and R0, and saves a pack of its own as PACK. */
#include <stdio.h>
#include <stdlib.h>
#include <string.h>

#include "pdp1140.h"

static const char script[] = "load tape\nset 6 1000\nstart 1000\ncontinue 10000\nregs\nmount 0 blank rw\nsave 0 pack\n";
static uint8_t files[65536], answers[65536], typed[4096], left[4 << 20];

/* Puts a number in 4 bytes, the lowest first, and behind it so many bytes: what is behind them. */
static uint8_t *put(uint8_t *at, const void *bytes, uint32_t length) {
    for (int i = 0; i < 4; i++) *at++ = (uint8_t)(length >> 8 * i);
    memcpy(at, bytes, length);
    return at + length;
}

/* The bytes behind a number, and how many they are: what is behind them. */
static const uint8_t *take(const uint8_t *at, const uint8_t **bytes, uint32_t *length) {
    *length = at[0] | at[1] << 8 | at[2] << 16 | (uint32_t)at[3] << 24;
    *bytes = at + 4;
    return *bytes + *length;
}

int main(int argc, char **argv) {
    static uint8_t tape[32768];
    FILE *in = argc == 3 ? fopen(argv[1], "rb") : NULL;
    if (!in) return 2;
    uint32_t length = (uint32_t)fread(tape, 1, sizeof tape, in);
    fclose(in);
    uint8_t *end = put(put(files, "tape", 4), tape, length);
    end = put(put(end, "blank", 5), "", 0);

    size_t text, list, bytes, size = (size_t)(end - files);
    const uint8_t *code = (const uint8_t *)script;
    int status = p11_session(28, 1024, code, sizeof script - 1, files, size, answers, sizeof answers - 1, &text, left,
                             sizeof left, &list);
    if (status == P11_DONE)
        status = p11_typed(28, 1024, code, sizeof script - 1, files, size, typed, sizeof typed, &bytes, left,
                           sizeof left, &list);
    if (status != P11_DONE) return fprintf(stderr, "tape: status %d\n", status), 1;
    fwrite(typed, 1, bytes, stdout);
    const char *registers = strstr((const char *)answers, "REGS ");
    if (registers) printf("R0 is %.6s\n", registers + 5);

    const uint8_t *at = left, *name, *pack;
    while (at < left + list) {
        at = take(at, &name, &length);
        int is_pack = length == 4 && memcmp(name, "pack", 4) == 0;
        at = take(at, &pack, &length);
        FILE *out = is_pack ? fopen(argv[2], "wb") : NULL;
        if (out && (fwrite(pack, 1, length, out) != length || fclose(out))) return 2;
    }
    return 0;
}
