#include <stdio.h>
#include "pdp1140.h"

int main(void) {
    struct p11_handle machine = {0};
    struct p11_run_told run;
    struct p11_registers regs;
    static const uint8_t none[1] = {0}, script[] = "deposit 1000 12700 5 62700 7 0\nstart 1000";
    if (p11_new(28, 1024, none, 0, &machine) != P11_DONE) return 1;
    if (p11_line(&machine, script, sizeof script - 1) != P11_DONE) return 1;
    if (p11_run(&machine, 1000, 0, &run) != P11_DONE || p11_regs(&machine, &regs) != P11_DONE) return 1;
    printf("%u turns, R0 is %o, PC is %o\n", run.turns, regs.general[0], regs.pc);
    p11_drop(&machine);
    return 0;
}
