/* lines TAPE PACK: keeps a machine in a handle, puts a tape and an empty pack into its store, and does one line at a
 * time on it; prints each answer, and behind them what was typed and R0; saves a pack of its own as PACK. */
#include <stdio.h>
#include <stdlib.h>
#include <string.h>

#include "pdp1140.h"

static const char *const lines[] = {"load tape", "set 6 1000", "start 1000", "continue 10000", "regs",
                                    "mount 0 blank rw", "save 0 pack"};
static uint8_t answer[65536], typed[4096], pack[4 << 20];

static const uint8_t *bytes_of(const char *text) {
    return (const uint8_t *)text;
}

int main(int argc, char **argv) {
    static uint8_t tape[32768];
    FILE *in = argc == 3 ? fopen(argv[1], "rb") : NULL;
    if (!in) return 2;
    size_t size = fread(tape, 1, sizeof tape, in);
    fclose(in);

    struct p11_handle machine = {0};
    struct p11_registers regs;
    size_t text, bytes, all = 0, saved;
    if (p11_line(&machine, tape, 0) != P11_NO_MACHINE) return 1;
    int status = p11_new(28, 1024, tape, 0, &machine);
    if (status == P11_DONE) status = p11_put_file(&machine, bytes_of("tape"), 4, tape, size);
    if (status == P11_DONE) status = p11_put_file(&machine, bytes_of("blank"), 5, tape, 0);
    for (size_t i = 0; status == P11_DONE && i < sizeof lines / sizeof *lines; i++) {
        status = p11_line(&machine, bytes_of(lines[i]), strlen(lines[i]));
        if (status == P11_DONE) status = p11_answer(&machine, answer, sizeof answer, &text);
        if (status == P11_DONE) fwrite(answer, 1, text, stdout);
        if (status == P11_DONE) status = p11_typed_text(&machine, typed + all, sizeof typed - all, &bytes);
        if (status == P11_DONE) all += bytes;
    }
    if (status == P11_DONE) status = p11_regs(&machine, &regs);
    if (status == P11_DONE) status = p11_file(&machine, bytes_of("pack"), 4, pack, sizeof pack, &saved);
    p11_drop(&machine);
    if (status != P11_DONE) return fprintf(stderr, "lines: status %d\n", status), 1;
    fwrite(typed, 1, all, stdout);
    printf("R0 is %06o\n", regs.general[0]);

    FILE *out = fopen(argv[2], "wb");
    return !out || fwrite(pack, 1, saved, out) != saved || fclose(out) ? 2 : 0;
}
