/* A watch of PC, 1,000 machines, and a fuzz loop, as examples/tasks.py has them. */
#include <stdio.h>
#include <string.h>
#include "p11_more.h"

static const uint8_t none[1] = {0};

static struct p11_handle made(const char *lines) {
    struct p11_handle machine = {0};
    p11_new(4, 1024, none, 0, &machine);
    p11_line(&machine, (const uint8_t *)lines, strlen(lines));
    return machine;
}

static void watch(void) {
    static const uint16_t place = 01002;
    struct p11_handle machine = made("deposit 1000 5200 776\nstart 1000");
    struct p11_run_told run;
    struct p11_registers regs;
    for (int at = 0; at < 10; at++) {
        p11_steps_until(&machine, &place, 1, 1000, &run);
        p11_regs(&machine, &regs);
        printf(at ? " %u" : "watch: %u", regs.general[0]);
    }
    p11_drop(&machine);
}

static void thousand(void) {
    static struct p11_handle machines[1000];
    struct p11_run_told run;
    struct p11_registers regs;
    unsigned sum = 0;
    for (unsigned at = 0; at < 1000; at++) {
        char lines[80];
        snprintf(lines, sizeof lines, "set 0 5\ndeposit 1000 62700 %o 0\nstart 1000", at);
        machines[at] = made(lines);
        p11_run(&machines[at], 100, 1, &run);
        p11_regs(&machines[at], &regs);
        sum += regs.general[0];
    }
    for (int at = 0; at < 1000; at++) p11_drop(&machines[at]);
    printf("\nmachines: %u", sum);
}

static void fuzz(void) {
    uint32_t seed = 1, ends[4] = {0}, places = 0;
    for (int program = 0; program < 1000; program++) {
        struct p11_handle machine = made("set 6 1000\nstart 1000");
        struct p11_run_told run;
        size_t done;
        for (uint32_t at = 01000; at < 01020; at += 2) {
            seed = (seed * 1103515245u + 12345) % (1u << 31);
            p11_put_words(&machine, at, &(uint16_t){(uint16_t)(seed >> 15)}, 1, &done);
        }
        p11_run(&machine, 100, 1, &run);
        ends[run.reason]++;
        places += run.pc;
        p11_drop(&machine);
    }
    printf("\nfuzz: %u %u %u %u\n", ends[P11_HALT], ends[P11_TURNS], ends[P11_IDLE], places);
}

int main(void) {
    watch();
    thousand();
    fuzz();
    return 0;
}
