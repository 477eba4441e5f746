/* leaks MACHINES PACKS: makes and drops so many machines, each a little used, and a console with each tenth; then takes the whole
 * pack out of a machine so many times; and drops all. Prints by how many KB the process was larger at the end of each than after
 * its first tenth. Valgrind and the address sanitizer find what isn't freed. */
#include <stdio.h>
#include <stdlib.h>
#include <string.h>
#include <sys/resource.h>

#include "pdp1140.h"

enum { PACK = 2494464 };

static struct p11_handle machine;
static uint8_t pack[PACK];
static const uint8_t file[] = {1, 0, 0, 0, 'p', 3, 0, 0, 0, 1, 2, 3};

static void must(int is_so, const char *what) {
    if (is_so) return;
    fprintf(stderr, "leaks: %s\n", what);
    exit(1);
}

static int line(const char *text) { return p11_line(&machine, (const uint8_t *)text, strlen(text)); }

static void use_console(void) {
    struct p11_console console = {0};
    uint32_t want = P11_WANTS_STEP;
    must(p11_console_new(4, 0, P11_GIVEN, 0, 0, 0, &console) == P11_DONE, "console");
    must(p11_console_keys(&console, (const uint8_t *)"regs\nstep 3\n", 12) == P11_DONE, "keys");
    for (int step = 0; step < 5; step++) must(p11_console_step(&console, 100, &want) == P11_DONE, "step");
    p11_console_drop(&console);
}

/* A machine, which is dropped by the call for that, or by making another in its place. */
static void use_machine(long number) {
    struct p11_run_told told;
    size_t length;
    must(p11_new(number % 100 ? 4 : 28, number % 100 ? 0 : 1024, file, sizeof file, &machine) == P11_DONE, "new");
    must(line("mount 0 p rw\ndeposit 1000 105737 177564 100375 12737 101 177566 777\nstart 1000") == P11_DONE, "line");
    must(p11_run(&machine, 100, 0, &told) == P11_DONE && told.turns == 100, "run");
    must(p11_typed_text(&machine, pack, PACK, &length) == P11_DONE && length == 1 && *pack == 'A', "typed");
    must(p11_put_file(&machine, file, 1, file, sizeof file) == P11_DONE, "put_file");
    if (number % 2) p11_drop(&machine);
    if (number % 10 == 0) use_console();
}

/* The pack of drive 0, as Python's pack() takes it. */
static void take_pack(long number) {
    const uint8_t *name = (const uint8_t *)"own";
    size_t length;
    if (number == 0) must(p11_new(28, 1024, file, sizeof file, &machine) == P11_DONE && line("mount 0 p rw") == P11_DONE, "mount");
    must(line("save 0 own") == P11_DONE, "save");
    must(p11_file(&machine, name, 3, pack, 0, &length) == P11_TOO_SMALL && length == PACK, "length");
    must(p11_file(&machine, name, 3, pack, length, &length) == P11_DONE, "file");
    must(p11_forget(&machine, name, 3) == P11_DONE, "forget");
}

/* The greatest size of the process so far, in KB. */
static long size(void) {
    struct rusage used;
    getrusage(RUSAGE_SELF, &used);
    return used.ru_maxrss;
}

/* Does a thing so many times, and tells how much larger the process is then than after the first tenth. */
static long repeat(void (*thing)(long), long times) {
    long before = 0;
    for (long number = 0; number < times; number++) {
        if (number == times / 10) before = size();
        thing(number);
    }
    return times ? size() - before : 0;
}

int main(int argc, char **argv) {
    must(argc == 3, "how many machines and packs is wanted");
    long machines = atol(argv[1]), packs = atol(argv[2]);
    long by_machines = repeat(use_machine, machines), by_packs = repeat(take_pack, packs);
    p11_drop(&machine);
    printf("%ld machines and %ld packs: %ld and %ld KB more\n", machines, packs, by_machines, by_packs);
    return 0;
}
