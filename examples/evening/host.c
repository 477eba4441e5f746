/* The machine under a program of the pack, on the host: keys are standard input, which ends the program, and the pack is
 * the file that EVENING_PACK names, as the machine's drive 0. Newlines are typed without their carriage return. */
#include <stdio.h>
#include <stdlib.h>
#include <poll.h>
#include <unistd.h>
#include "machine.h"

#define LAST_BLOCK 4871
#define WRITE_LOCK 020000
#define NO_SECTOR 040

void emit(int16 c) {
    if (c != '\r') putchar(c);
}

void leave(void) {
    fflush(stdout);
    exit(0);
}

int16 has_key(void) {
    struct pollfd input = {0, POLLIN, 0};
    return poll(&input, 1, 0) > 0;
}

void wait_key(void) {
    fflush(stdout);
}

int16 key(void) {
    unsigned char typed;
    if (read(0, &typed, 1) != 1) leave();
    return (int16)(typed & 0177);
}

static FILE *pack(const char *mode) {
    const char *name = getenv("EVENING_PACK");
    return name ? fopen(name, mode) : NULL;
}

uint16 read_block(uint16 block, void *to) {
    FILE *file = pack("rb");
    if (!file || block > LAST_BLOCK) return NO_SECTOR;
    fill(to, 0, 512);
    fseek(file, 512L * block, SEEK_SET);
    if (fread(to, 1, 512, file)) {}
    fclose(file);
    return 0;
}

uint16 write_block(uint16 block, const void *from) {
    FILE *file = pack("r+b");
    if (!file) return WRITE_LOCK;
    if (block > LAST_BLOCK) return NO_SECTOR;
    fseek(file, 512L * block, SEEK_SET);
    fwrite(from, 1, 512, file);
    fclose(file);
    return 0;
}
