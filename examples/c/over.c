/* over CASES: plays cases, each a session with the answers that it is to have, by p11_session and p11_typed, with
 * buffers that are too small, and with buffers of just the wanted length, and line by line on a machine in a handle,
 * whose files are those of a row or are put one by one, whose runs are lines or calls of p11_run, and whose registers,
 * waiting keys and files are compared with what the console and p11_files show of them; says how many, or stops at the
 * first that is wrong. A case is two numbers (thousands of words, decoded
 * instructions) and four rows of bytes behind their lengths: script, files, answers, typed. Numbers are of 4 bytes, the
 * lowest first. */
#define _DEFAULT_SOURCE
#include <stdio.h>
#include <stdlib.h>
#include <string.h>
#include <sys/mman.h>

#include "pdp1140.h"

typedef int32_t call(uint32_t, uint32_t, const uint8_t *, size_t, const uint8_t *, size_t, uint8_t *, size_t, size_t *,
                     uint8_t *, size_t, size_t *);

struct bytes {
    uint8_t *at;
    size_t length;
};

static int number(FILE *in, uint32_t *value) {
    uint8_t b[4];
    if (fread(b, 1, 4, in) != 4) return 0;
    *value = b[0] | b[1] << 8 | b[2] << 16 | (uint32_t)b[3] << 24;
    return 1;
}

static struct bytes room(size_t length) {
    struct bytes b = {malloc(length ? length : 1), length};
    if (!b.at) exit(3);
    memset(b.at, 0xa5, length ? length : 1);
    return b;
}

static struct bytes row(FILE *in) {
    uint32_t length;
    if (!number(in, &length)) exit(2);
    struct bytes b = room(length);
    if (fread(b.at, 1, length, in) != length) exit(2);
    return b;
}

static int is_untouched(struct bytes b) {
    for (size_t i = 0; i < b.length; i++)
        if (b.at[i] != 0xa5) return 0;
    return 1;
}

/* One call: first with as much room as half of the answer wants, then with just enough. */
static int plays(call *play, uint32_t kwords, uint32_t lines, struct bytes script, struct bytes files,
                 struct bytes wanted) {
    size_t length = 7, left_length = 7;
    struct bytes none = room(0), half = room(wanted.length / 2), left = room(0);
    int good = 1;
    int32_t status = play(kwords, lines, script.at, script.length, files.at, files.length, half.at, half.length,
                          &length, none.at, 0, &left_length);
    if (wanted.length || left_length) good &= status == P11_TOO_SMALL && is_untouched(half);
    good &= length == wanted.length;
    free(left.at);
    struct bytes out = room(length);
    left = room(left_length);
    status = play(kwords, lines, script.at, script.length, files.at, files.length, out.at, length, &length, left.at,
                  left_length, &left_length);
    good &= status == P11_DONE && length == wanted.length && memcmp(out.at, wanted.at, length) == 0;
    good &= left_length >= files.length && memcmp(left.at, files.at, files.length) == 0;
    free(none.at), free(half.at), free(out.at), free(left.at);
    return good;
}

/* The bytes at the front of a row, behind their number; what is behind them is left. */
static struct bytes next(struct bytes *row) {
    const uint8_t *b = row->at;
    struct bytes front = {row->at + 4, b[0] | b[1] << 8 | b[2] << 16 | (size_t)b[3] << 24};
    row->at += 4 + front.length, row->length -= 4 + front.length;
    return front;
}

/* A new machine, to which the files of a row are put one by one, each first without its bytes. */
static int puts_files(uint32_t kwords, uint32_t lines, struct bytes files, struct p11_handle *machine) {
    int good = p11_new(kwords, lines, files.at, 0, machine) == P11_DONE;
    while (files.length) {
        struct bytes name = next(&files), held = next(&files);
        good &= p11_put_file(machine, name.at, name.length, held.at, 0) == P11_DONE;
        good &= p11_put_file(machine, name.at, name.length, held.at, held.length) == P11_DONE;
    }
    return good;
}

/* What the machine shows of its registers: the console's lines, from the numbers that p11_regs tells. */
static int shows(struct p11_handle *machine, char *text, size_t size) {
    static const char *const marks[] = {"ready", "waiting", "halted"};
    struct p11_registers r;
    if (p11_regs(machine, &r) != P11_DONE) return 0;
    const uint16_t *g = r.general;
    return snprintf(text, size,
                    "REGS %06o %06o %06o %06o %06o %06o\nSP %06o %06o PC %06o PS %06o\nTURN %llu %s\nMMU %06o %06o\n",
                    g[0], g[1], g[2], g[3], g[4], g[5], r.kernel_sp, r.user_sp, r.pc, r.status,
                    (unsigned long long)r.turns, marks[r.mark], r.status_0, r.status_2) > 0;
}

/* Whether the keys that wait are those that the console shows. */
static int waits(struct p11_handle *machine, const char *devices) {
    uint32_t keys = 7, shown = 8;
    const char *found = strstr(devices, " keys ");
    return p11_keys_waiting(machine, &keys) == P11_DONE && found && sscanf(found, " keys %u", &shown) == 1 && keys == shown;
}

/* The same of the console: what it answers to regs, and its line MMU of what it answers to device. */
static int is_shown(struct p11_handle *machine) {
    char told[256], shown[2048];
    size_t length = 0, more = 0;
    int good = shows(machine, told, sizeof told) && p11_line(machine, (const uint8_t *)"regs", 4) == P11_DONE;
    good &= p11_answer(machine, (uint8_t *)shown, sizeof shown, &length) == P11_DONE;
    good &= p11_line(machine, (const uint8_t *)"device", 6) == P11_DONE;
    good &= p11_answer(machine, (uint8_t *)shown + length, sizeof shown - length - 1, &more) == P11_DONE;
    if (!good) return 0;
    shown[length + more] = 0;
    const char *mapping = strstr(shown, "MMU ");
    if (!mapping || memcmp(told, shown, length) || !waits(machine, shown)) return 0;
    return strncmp(told + length, mapping, strlen(told + length)) == 0;
}

/* Whether a line is a run, and of how many turns. */
static int is_run(const uint8_t *line, size_t length, uint32_t *turns, uint32_t *until_idle) {
    char text[64], word[9];
    int end = 0;
    if (length >= sizeof text) return 0;
    for (size_t i = 0; i < length; i++)
        if (line[i] < 33 && line[i] != ' ' && line[i] != '\t') return 0;
    memcpy(text, line, length);
    text[length] = 0;
    if (sscanf(text, " %8[a-z] %9u %n", word, turns, &end) != 2 || (size_t)end != length || strchr(text, '-') || strchr(text, '+'))
        return 0;
    *until_idle = strcmp(word, "continue") == 0;
    return (*until_idle || strcmp(word, "step") == 0) && *turns > 0 && *turns <= 100000000;
}

/* Makes a run: its numbers are those of the line STOP at the end of its text. */
static int runs(struct p11_handle *machine, uint32_t turns, uint32_t until_idle) {
    static const char *const reasons[] = {"halt", "turns", "idle", "memory"};
    struct p11_run_told told;
    size_t length = 0;
    char wanted[64];
    if (p11_run(machine, turns, until_idle, &told) != P11_DONE || told.reason > P11_MEMORY) return 0;
    if (p11_answer(machine, (uint8_t *)wanted, 0, &length) != P11_TOO_SMALL) return 0;
    struct bytes text = room(length);
    int good = p11_answer(machine, text.at, length, &length) == P11_DONE;
    size_t stop = (size_t)snprintf(wanted, sizeof wanted, "STOP %s %u %06o\n", reasons[told.reason], told.turns, told.pc);
    good &= length >= stop && memcmp(text.at + length - stop, wanted, stop) == 0;
    free(text.at);
    return good;
}

/* Does a line, and a run by its own call where that is asked for. */
static int does(struct p11_handle *machine, const uint8_t *line, size_t length, int by_run) {
    uint32_t turns, until_idle;
    if (by_run && is_run(line, length, &turns, &until_idle)) return runs(machine, turns, until_idle);
    return p11_line(machine, line, length) == P11_DONE;
}

/* The same lines one by one, on a machine that is kept: all their answers, and what was typed. */
static int keeps(struct p11_handle *machine, int by_run, struct bytes script, struct bytes wanted, struct bytes wanted_typed) {
    struct bytes out = room(wanted.length), typed = room(wanted_typed.length);
    size_t done = 0, text = 7, all = 0, bytes = 7;
    int good = 1;
    for (size_t from = 0, end; good && from <= script.length; from = end + 1) {
        for (end = from; end < script.length && script.at[end] != '\n'; end++) continue;
        size_t length = end - from;
        if (end < script.length && length && script.at[end - 1] == '\r') length--;
        good &= does(machine, script.at + from, length, by_run);
        good &= p11_answer(machine, out.at + done, out.length - done, &text) == P11_DONE;
        int32_t status = p11_typed_text(machine, typed.at + all, 0, &bytes);
        good &= status == (bytes ? P11_TOO_SMALL : P11_DONE);
        good &= p11_typed_text(machine, typed.at + all, typed.length - all, &bytes) == P11_DONE;
        done += text, all += bytes;
    }
    good &= done == wanted.length && memcmp(out.at, wanted.at, done) == 0;
    good &= all == wanted_typed.length && memcmp(typed.at, wanted_typed.at, all) == 0;
    free(out.at), free(typed.at);
    return good && is_shown(machine);
}

/* The files of a machine, as their row. */
static struct bytes files_of(struct p11_handle *machine) {
    uint8_t none;
    size_t length = 0;
    p11_files(machine, &none, 0, &length);
    struct bytes row = room(length);
    if (p11_files(machine, row.at, length, &length) != P11_DONE || length != row.length) exit(3);
    return row;
}

static int is_same(struct bytes one, struct bytes other) {
    return one.length == other.length && memcmp(one.at, other.at, one.length) == 0;
}

/* Whether a name has the last bytes that a row has for it, or none where it has none. */
static int finds(struct p11_handle *machine, struct bytes row, struct bytes name) {
    struct bytes last = {NULL, 0};
    while (row.length) {
        struct bytes other = next(&row), held = next(&row);
        if (is_same(name, other)) last = held;
    }
    size_t length = 7;
    struct bytes out = room(last.length);
    int32_t status = p11_file(machine, name.at, name.length, out.at, out.length, &length);
    int good = last.at ? status == P11_DONE && length == last.length && memcmp(out.at, last.at, length) == 0
                       : status == P11_NO_FILE && length == 7;
    if (last.length) good &= p11_file(machine, name.at, name.length, out.at, last.length - 1, &length) == P11_TOO_SMALL;
    free(out.at);
    return good;
}

/* Each name has its last bytes; once the first is forgotten it has none, and the others have what they had. */
static int forgets(struct p11_handle *machine) {
    struct bytes row = files_of(machine), rest = row, first = {row.at, 0};
    int good = 1;
    if (row.length) first = next(&rest);
    for (rest = row; good && rest.length; next(&rest)) good &= finds(machine, row, next(&rest));
    good &= p11_forget(machine, first.at, first.length) == (row.length ? P11_DONE : P11_NO_FILE);
    good &= p11_forget(machine, first.at, first.length) == P11_NO_FILE;
    struct bytes left = files_of(machine), kept = left;
    for (rest = row; good && rest.length;) {
        struct bytes name = next(&rest), held = next(&rest);
        if (is_same(name, first)) continue;
        good &= kept.length > 0 && is_same(name, next(&kept)) && is_same(held, next(&kept));
    }
    good &= kept.length == 0;
    free(row.at), free(left.at);
    return good;
}

/* A machine with the files of a row, and one to which they are put: both keep the lines, and are dropped. */
static int keeps_both(uint32_t kwords, uint32_t lines, struct bytes script, struct bytes files, struct bytes answers,
                      struct bytes typed) {
    struct p11_handle machine = {0};
    uint8_t none;
    size_t list = 7, text = 7;
    int good = p11_new(kwords, lines, files.at, files.length, &machine) == P11_DONE && machine.machines == 1;
    good &= keeps(&machine, 0, script, answers, typed);
    good &= p11_files(&machine, &none, 0, &list) == (list ? P11_TOO_SMALL : P11_DONE) && list >= files.length;
    good &= puts_files(kwords, lines, files, &machine) && keeps(&machine, 1, script, answers, typed) && forgets(&machine);
    p11_drop(&machine);
    return good && machine.machines == 0 && p11_answer(&machine, &none, 0, &text) == P11_NO_MACHINE && text == 7;
}

/* What the calls on a handle refuse: all of them where it holds no machine, and a file of 2^32 bytes, or one whose name
 * has them. Nothing is written, and the files stay. */
static int refuses_files(void) {
    size_t large = (size_t)1 << 32, length = 7;
    uint8_t *zeros = mmap(NULL, large, PROT_READ, MAP_PRIVATE | MAP_ANONYMOUS | MAP_NORESERVE, -1, 0);
    if (zeros == MAP_FAILED) return 0;
    struct p11_handle machine = {0};
    struct p11_registers regs, same;
    struct p11_run_told told = {7, 7, 7};
    uint32_t keys = 7;
    struct bytes out = room(9);
    memset(&regs, 0xa5, sizeof regs), memset(&same, 0xa5, sizeof same);
    int good = p11_put_file(&machine, zeros, 1, zeros, 1) == P11_NO_MACHINE;
    good &= p11_typed_text(&machine, out.at, 9, &length) == P11_NO_MACHINE && length == 7;
    good &= p11_regs(&machine, &regs) == P11_NO_MACHINE && memcmp(&regs, &same, sizeof regs) == 0;
    good &= p11_run(&machine, 1, 0, &told) == P11_NO_MACHINE && told.turns == 7 && told.reason == 7 && told.pc == 7;
    good &= p11_file(&machine, zeros, 1, out.at, 9, &length) == P11_NO_MACHINE && length == 7;
    good &= p11_forget(&machine, zeros, 1) == P11_NO_MACHINE;
    good &= p11_keys_waiting(&machine, &keys) == P11_NO_MACHINE && keys == 7;
    good &= p11_new(4, 0, zeros, 0, &machine) == P11_DONE;
    good &= p11_run(&machine, 0, 0, &told) == P11_TOO_MANY && p11_run(&machine, 100000001, 1, &told) == P11_TOO_MANY;
    good &= told.turns == 7 && told.reason == 7 && told.pc == 7;
    good &= p11_put_file(&machine, zeros, large, zeros, 0) == P11_BAD_FILES;
    good &= p11_put_file(&machine, zeros, 0, zeros, large) == P11_BAD_FILES;
    good &= p11_files(&machine, out.at, 9, &length) == P11_DONE && length == 0 && is_untouched(out);
    p11_drop(&machine);
    free(out.at);
    return munmap(zeros, large) == 0 && good;
}

/* A size that no machine has, then bytes that are no row of files: each is told, and nothing is written. */
static int refuses(void) {
    const uint8_t script[] = "regs\n", files[] = {1, 0, 0, 0, 'a', 2, 0, 0, 0, 'b'};
    struct bytes out = room(9), left = room(9);
    size_t length = 7, left_length = 7;
    int good = p11_session(5, 0, script, 5, files, 10, out.at, 9, &length, left.at, 9, &left_length) == P11_BAD_SIZE;
    good &= p11_session(28, 0, script, 5, files, 10, out.at, 9, &length, left.at, 9, &left_length) == P11_BAD_FILES;
    good &= is_untouched(out) && is_untouched(left) && length == 7 && left_length == 7;
    free(out.at), free(left.at);
    return good;
}

int main(int argc, char **argv) {
    FILE *in = argc == 2 ? fopen(argv[1], "rb") : NULL;
    uint32_t kwords, lines, count = 0;
    if (!in || !refuses() || !refuses_files()) return 2;
    while (number(in, &kwords) && number(in, &lines)) {
        struct bytes script = row(in), files = row(in), answers = row(in), typed = row(in);
        if (!plays(p11_session, kwords, lines, script, files, answers) ||
            !plays(p11_typed, kwords, lines, script, files, typed) ||
            !keeps_both(kwords, lines, script, files, answers, typed)) {
            fprintf(stderr, "over: case %u is wrong:\n%.*s", count, (int)script.length, (char *)script.at);
            return 1;
        }
        free(script.at), free(files.at), free(answers.at), free(typed.at);
        count++;
    }
    fclose(in);
    return printf("over: %u cases\n", count) < 0;
}
