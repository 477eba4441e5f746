/* more: the calls of p11_more.h beside single steps and single words. Exit status 1: one comes to something else, which is named. */
#include <stdio.h>
#include <string.h>

#include "p11_more.h"

static const uint8_t none[1];
static int wrong;

static void sees(const char *what, int is_so) {
    if (is_so) return;
    printf("more: %s: it's otherwise\n", what);
    wrong = 1;
}

static void line(struct p11_handle *machine, const char *text) {
    sees(text, p11_line(machine, (const uint8_t *)text, strlen(text)) == P11_DONE);
}

/* A loop of three instructions at 1000: INC R0; MOV R0 to 1010; BR 1000. */
static struct p11_handle looping(void) {
    struct p11_handle machine = {0};
    sees("a machine", p11_new(4, 64, none, 0, &machine) == P11_DONE);
    line(&machine, "deposit 1000 5200 10067 2 774 0");
    line(&machine, "start 1000");
    return machine;
}

static int is_one_of(uint16_t pc, const uint16_t *addresses, size_t count) {
    for (size_t at = 0; at < count; at++)
        if (addresses[at] == pc) return 1;
    return 0;
}

/* Steps up to an address, and the same by single steps: the same turns, PC and registers. */
static void compare(const char *what, const uint16_t *addresses, size_t count, uint32_t most, int reason) {
    struct p11_handle one = looping(), other = looping();
    struct p11_run_told told, step;
    struct p11_registers regs, others;
    uint32_t turns = 0;
    sees(what, p11_steps_until(&one, addresses, count, most, &told) == P11_DONE && told.reason == reason);
    do {
        sees(what, p11_run(&other, 1, 0, &step) == P11_DONE);
        turns += step.turns;
    } while (turns < most && step.reason == P11_TURNS && !is_one_of(step.pc, addresses, count));
    sees(what, p11_regs(&one, &regs) == P11_DONE && p11_regs(&other, &others) == P11_DONE);
    sees(what, told.turns == turns && told.pc == step.pc && regs.turns == others.turns && memcmp(&regs, &others, sizeof regs - 6) == 0);
    p11_drop(&one);
    p11_drop(&other);
}

static void steps(void) {
    static const uint16_t one[] = {01002}, two[] = {01010, 01006}, never[] = {0, 0177777};
    struct p11_handle machine = {0};
    struct p11_run_told told;
    compare("the next instruction", one, 1, 100, P11_AT);
    compare("one of two", two, 2, 100, P11_AT);
    compare("no turn too many", two, 2, 1, P11_TURNS);
    compare("up to the last turn", never, 2, 5000, P11_TURNS);
    compare("no address", never, 0, 7, P11_TURNS);
    sees("no machine", p11_steps_until(&machine, one, 1, 1, &told) == P11_NO_MACHINE);
    machine = looping();
    sees("no turns", p11_steps_until(&machine, one, 1, 0, &told) == P11_TOO_MANY);
    sees("too many", p11_steps_until(&machine, one, 1, 100000001, &told) == P11_TOO_MANY);
    line(&machine, "start 1010");
    sees("a HALT at the address", p11_steps_until(&machine, (const uint16_t[]){01012}, 1, 9, &told) == P11_DONE && told.reason == P11_HALT &&
                                      told.turns == 1 && told.pc == 01012);
    p11_drop(&machine);
}

static void words(void) {
    static uint16_t put[28 * 1024], got[28 * 1024];
    struct p11_handle machine = {0};
    size_t done;
    for (size_t at = 0; at < 28 * 1024; at++) put[at] = (uint16_t)(at * 40503u + 7);
    sees("a machine", p11_new(28, 0, none, 0, &machine) == P11_DONE);
    sees("all of the memory", p11_put_words(&machine, 0, put, 28 * 1024, &done) == P11_DONE && done == 28 * 1024);
    sees("is there again", p11_words(&machine, 0, got, 28 * 1024, &done) == P11_DONE && done == 28 * 1024 && memcmp(put, got, sizeof put) == 0);
    sees("no word", p11_words(&machine, 1, got, 0, &done) == P11_DONE && done == 0);
    sees("words and none behind them", p11_words(&machine, 0156000, got, 1024, &done) == P11_NO_WORDS && done == 512);
    sees("an odd address", p11_put_words(&machine, 01001, put, 1, &done) == P11_NO_WORDS && done == 0);
    sees("the registers of a device", p11_words(&machine, 0777560, got, 4, &done) == P11_DONE && done == 4 && got[2] == 0200);
    sees("the switches", p11_put_words(&machine, 0777776, (const uint16_t[]){0340}, 1, &done) == P11_DONE && done == 1 &&
                             p11_words(&machine, 0777776, got, 1, &done) == P11_DONE && got[0] == 0340);
    p11_drop(&machine);
    sees("no machine", p11_words(&machine, 0, got, 1, &done) == P11_NO_MACHINE && p11_put_words(&machine, 0, put, 1, &done) == P11_NO_MACHINE);
}

int main(void) {
    steps();
    words();
    if (!wrong) puts("more: steps up to an address are single steps, and arrays are words");
    return wrong;
}
