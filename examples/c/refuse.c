/* refuse: plays one session, and then its lines on a machine in a handle and at a console, while each request for memory in turn is
 * refused, by itself and then with all that follow it; says how many calls met a refusal. Linked with --wrap for malloc
 * and realloc. A session then ends with P11_NO_MEMORY and nothing written, or is done, with the refusal in an answer. */
#include <stdio.h>
#include <stdlib.h>
#include <string.h>

#include "pdp1140.h"

static long left_to_grant = -1; /* below 0: all are granted */
static int refuses_on, was_refused;

void *__real_malloc(size_t size);
void *__real_realloc(void *old, size_t size);
void *__wrap_malloc(size_t size);
void *__wrap_realloc(void *old, size_t size);

static int is_refused(void) {
    if (left_to_grant < 0) return 0;
    if (left_to_grant > 0) return left_to_grant--, 0;
    left_to_grant = refuses_on ? 0 : -1;
    return was_refused = 1;
}

void *__wrap_malloc(size_t size) {
    return is_refused() ? NULL : __real_malloc(size);
}

void *__wrap_realloc(void *old, size_t size) {
    return is_refused() ? NULL : __real_realloc(old, size);
}

static const uint8_t script[] =
    "mount 0 p rw\ndeposit 1000 777\nexamine 1000 3\nstart 1000\nstep 9\nsave 0 q\nregs\n";
static const uint8_t files[] = {1, 0, 0, 0, 'p', 1, 0, 0, 0, 7};
static uint8_t out[4096], list[4 << 20];

/* A call is done, or it found no memory or no machine, and the length is as it was. */
static int is_handed(int status, size_t length) {
    return status == P11_DONE || (length == 7 && (status == P11_NO_MEMORY || status == P11_NO_MACHINE));
}

/* A machine that is kept, whose lines are done while memory is refused: a line that is done or finds no memory leaves
 * it, and its answer and its registers are handed out without memory. A file is put, or finds no memory and leaves the
 * files. */
static int keeps(void) {
    struct p11_handle machine = {0};
    struct p11_registers regs;
    size_t text = 7, typed = 7, list_length = 7;
    int good = 1, status = p11_new(28, 16, files, sizeof files, &machine);
    if (status != P11_DONE) good = status == P11_NO_MEMORY && machine.machines == 0;
    int put = p11_put_file(&machine, files + 4, 1, script, 9);
    good &= is_handed(put, 7);
    for (const char *line = (const char *)script; machine.machines && *line; line = strchr(line, '\n') + 1) {
        status = p11_line(&machine, (const uint8_t *)line, (size_t)(strchr(line, '\n') - line));
        good &= (status == P11_DONE || status == P11_NO_MEMORY) && machine.machines == 1;
        good &= p11_answer(&machine, out, sizeof out, &text) == P11_DONE && p11_regs(&machine, &regs) == P11_DONE;
        typed = 7;
        good &= is_handed(p11_typed_text(&machine, out, sizeof out, &typed), typed);
    }
    if (machine.machines) {
        struct p11_run_told told = {0, 0, 0};
        status = p11_run(&machine, 9, 0, &told);
        good &= status == P11_DONE || status == P11_NO_MEMORY;
        good &= told.reason == P11_TURNS ? told.turns == 9 : told.reason == P11_HALT && told.turns == 1;
    }
    status = p11_files(&machine, list, sizeof list, &list_length);
    good &= is_handed(status, list_length);
    int is_last = list_length > 15 && list[14] == 'p' && list[15] == 9;
    if (status == P11_DONE) good &= is_last == (put == P11_DONE);
    p11_drop(&machine);
    return good && machine.machines == 0;
}

/* Gives a console what it wants: the lines of the script once, files of one byte, and a file that is written. */
static int answer(struct p11_console *console, uint32_t want, int *is_given) {
    if (want == P11_WANTS_FETCH) return p11_console_fetched(console, files + 9, 1);
    if (want == P11_WANTS_PUT) return p11_console_put(console, P11_FILE_WRITTEN);
    if (want != P11_WANTS_KEYS && want != P11_WANTS_IDLE) return P11_DONE;
    if (*is_given) return p11_console_closed(console);
    int status = p11_console_keys(console, script, sizeof script - 1);
    *is_given = status == P11_DONE;
    return status;
}

/* A dialogue of the same lines. What finds no memory is asked for once more, with all memory, and the dialogue comes to its end. */
static int holds(void) {
    struct p11_console console = {0};
    uint32_t want = P11_WANTS_STEP;
    size_t length = 1;
    int good = 1, is_given = 0, status = p11_console_new(28, 16, P11_GIVEN, 0, 0, 0, &console);
    if (status != P11_DONE) return status == P11_NO_MEMORY && console.consoles == 0;
    while (good && want != P11_WANTS_END) {
        good = p11_console_step(&console, 5, &want) == P11_DONE;
        status = answer(&console, want, &is_given);
        good &= status == P11_DONE || status == P11_NO_MEMORY;
        if (status == P11_NO_MEMORY || want == P11_WANTS_MEMORY) left_to_grant = -1;
    }
    while (good && length > 0)
        good = p11_console_screen(&console, out, 7, &length) == P11_DONE && p11_console_shown(&console, length) == P11_DONE;
    good &= is_given && p11_console_shown(&console, 1) == P11_TOO_MANY;
    struct p11_registers regs;
    length = 7;
    good &= p11_console_regs(&console, &regs) == P11_DONE && is_handed(p11_console_devices(&console, out, sizeof out, &length), length);
    p11_console_drop(&console);
    return good && console.consoles == 0;
}

int main(void) {
    long refused = 0;
    for (refuses_on = 0; refuses_on < 2; refuses_on++) {
        for (long granted = 0;; granted++) {
            size_t length = 7, list_length = 7;
            memset(out, 0xa5, sizeof out);
            left_to_grant = granted;
            was_refused = 0;
            int status = p11_session(28, 16, script, sizeof script - 1, files, sizeof files, out, sizeof out, &length,
                                     list, sizeof list, &list_length);
            left_to_grant = -1;
            if (status == P11_NO_MEMORY ? out[0] != 0xa5 || length != 7 || list_length != 7 : status != P11_DONE)
                return fprintf(stderr, "refuse: status %d behind %ld requests\n", status, granted), 1;
            if (!was_refused) break;
            refused++;
        }
        for (long granted = 0;; granted++) {
            left_to_grant = granted;
            was_refused = 0;
            int good = keeps() && holds();
            left_to_grant = -1;
            if (!good) return fprintf(stderr, "refuse: a machine or a console, behind %ld requests\n", granted), 1;
            if (!was_refused) break;
            refused++;
        }
    }
    return printf("refuse: %ld refusals\n", refused) < 0;
}
