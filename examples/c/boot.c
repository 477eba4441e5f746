/* boot PACK TEXT NEW: boots the pack in the file PACK, types TEXT and a return on the machine's terminal, and writes the pack as
 * it is then to NEW, if it has changed. */
#include <stdio.h>
#include <stdlib.h>
#include <string.h>

#include "pdp1140.h"
#include "p11_version.h"

static struct p11_handle machine; /* all bytes 0: it holds no machine yet */
static uint8_t pack[4 << 20], text[1 << 16];

static void must(int status, const char *what) {
    if (status == P11_DONE) return;
    fprintf(stderr, "boot: %s: status %d\n", what, status);
    exit(1);
}

/* Does a line of the console, and gives its answer. */
static const char *line(const char *words) {
    size_t length;
    must(p11_line(&machine, (const uint8_t *)words, strlen(words)), words);
    must(p11_answer(&machine, text, sizeof text - 1, &length), words);
    text[length] = 0;
    if (*text == '?') {
        fprintf(stderr, "boot: %s: %s", words, (const char *)text);
        exit(1);
    }
    return (const char *)text;
}

/* Runs until the machine halts or waits for a key, and shows what it has typed. */
static void run(void) {
    struct p11_run_told told;
    size_t length;
    must(p11_run(&machine, 10000000, 1, &told), "run");
    must(p11_typed_text(&machine, text, sizeof text, &length), "typed");
    fwrite(text, 1, length, stdout);
    printf("\n%s after %u turns, PC is %06o\n", told.reason == P11_HALT ? "halted" : "stopped", told.turns, told.pc);
}

int main(int argc, char **argv) {
    char key[300] = "key ";
    FILE *file = argc == 4 && strlen(argv[2]) < 64 ? fopen(argv[1], "rb") : NULL;
    if (!file) return fprintf(stderr, "usage: boot PACK TEXT NEW: PACK is a file, TEXT has up to 63 characters\n"), 2;
    size_t size = fread(pack, 1, sizeof pack, file);
    fclose(file);
    puts(p11_version());
    must(p11_new(28, 1024, pack, 0, &machine), "new");
    must(p11_put_file(&machine, (const uint8_t *)"pack", 4, pack, size), "pack");
    line("mount 0 pack rw");
    line("deposit 1000 12700 177406 12710 177400 12740 5 105710 100376 5007"); /* the usual loader */
    line("start 1000");
    run();
    for (const char *at = argv[2]; *at; at++) sprintf(key + strlen(key), "\\%03o", (unsigned char)*at);
    line(strcat(key, "\\015"));
    run();
    if (strcmp(line("changed 0"), "CHANGED 0\n")) {
        line("save 0 pack");
        must(p11_file(&machine, (const uint8_t *)"pack", 4, pack, sizeof pack, &size), "pack");
        file = fopen(argv[3], "wb");
        if (!file || fwrite(pack, 1, size, file) != size || fclose(file)) return perror(argv[3]), 2;
    }
    p11_drop(&machine);
    return 0;
}
