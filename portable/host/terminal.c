/* p11-terminal: a PDP-11/40 for a person, who sits at its console and at its terminal: the console of pdp1140.h, and what reads and writes
 * around it. Exit status: the dialogue's; 128 and the number of the signal that ended it; 1: a file, the screen or the record can't be
 * used; 2: the command line is refused; 3: there is no memory. */
#include "pdp1140.h"

#include <stdio.h>
#include <stdlib.h>
#include <string.h>

#include "help.h"
#include "options.h"
#include "shown.h"
#include "system.h"

enum { MEMORY, LINES, SLICE, RECORD, HISTORY, FILES, NO_SAVE, RAW, BATCH, STRICT, TALK };
enum { MOST_TURNS = 100000000, LOOK_MS = 5, PAUSE_MS = 20, DRIVES = 8, MOST_NAMES = 10000, ROOM = 4096, PACK = 2494464 };
/* Steps in which a dialogue that is cut off ends what is under way, and saves packs. */
enum { LAST_STEPS = 1000 };

static const struct program PROGRAM = {
    "terminal",
    HELP_TERMINAL,
    0,
    {{"memory", "K", 1, 0, 0}, {"lines", "N", 1, 0, 0}, {"slice", "S", 1, 0, 0}, {"record", "FILE", 0, 0, 0},
     {"history", "FILE", 0, 0, 0}, {"files", "FOLDER", 0, 0, 0}, {"no-save", 0, 0, 0, 0}, {"raw", 0, 0, 0, 0},
     {"batch", 0, 0, "SCRIPT", 0}, {"strict", 0, 0, "batch", 0}, {"talk", 0, 0, 0, "batch"}, {0, 0, 0, 0, 0}}};

static struct p11_console console;
static struct choices choices;
static uint8_t text[ROOM], row[4 * (ROOM + 32)];
static char name[ROOM + 1];
static int is_typed, is_cut_off, is_torn, record = -1, past = -1;
/* Of each drive the name of its pack's file, and the sum of what was saved of it last. */
static char packs[DRIVES][256];
static uint64_t saved_sums[DRIVES], last_sum;

static int fail(int status, const char *why) {
    fprintf(stderr, "terminal: %s\n", why);
    return status;
}

static uint64_t sum_of(const uint8_t *bytes, size_t size) {
    uint64_t sum = 14695981039346656037U;
    for (; size > 0; size--) sum = (sum ^ *bytes++) * 1099511628211U;
    return sum;
}

/* Where a name is taken, the first number behind it under which none is there. */
static int new_name(const char *wanted, char *found, size_t room, int (*takes)(const char *)) {
    int number, made;
    for (number = 0; number < MOST_NAMES; number++) {
        snprintf(found, room, number ? "%s.%d" : "%s", wanted, number);
        made = takes(found);
        if (made >= 0) return made;
    }
    return -1;
}

static int is_free(const char *path) { return is_file(path) ? -1 : 0; }

/* -- what comes of the console */

/* Notes which pack a drive has, and which one is saved, of a line of the record. */
static void note(const char *line) {
    char held[256];
    unsigned drive;
    if (sscanf(line, "mount %o %255s", &drive, held) == 2 && drive < DRIVES) {
        strcpy(packs[drive], held);
        saved_sums[drive] = 0;
    } else if (sscanf(line, "save %o %255s", &drive, held) == 2 && drive < DRIVES) {
        saved_sums[drive] = last_sum;
    }
}

static void write_record(void) {
    static char line[ROOM];
    static size_t length;
    p11_size size, at;
    while (p11_console_record(&console, text, sizeof text, &size) == P11_DONE && size > 0) {
        for (at = 0; at < size; at++) {
            if (length + 1 < sizeof line) line[length++] = (char)text[at];
            if (text[at] != '\n') continue;
            line[length - 1] = 0;
            note(line);
            length = 0;
        }
        if (record >= 0 && !append(record, text, size)) {
            fail(1, "the record can't be written");
            is_torn = 1;
            record = -1;
        }
        p11_console_recorded(&console, size);
    }
}

/* Writes what there is: whether the screen took it. */
static int show(void) {
    p11_size size;
    write_record();
    while (p11_console_past(&console, text, sizeof text, &size) == P11_DONE && size > 0) {
        if (past >= 0) append(past, text, size);
        p11_console_kept(&console, size);
    }
    while (p11_console_screen(&console, text, sizeof text, &size) == P11_DONE && size > 0) {
        size_t count = choices.values[RAW] ? (memcpy(row, text, size), size) : pass(text, size, row);
        p11_console_shown(&console, size);
        if (!write_all(row, count)) return 0;
    }
    if (p11_console_errors(&console, text, sizeof text, &size) == P11_DONE && size > 0) {
        fwrite(row, 1, pass(text, size, row), stderr);
        p11_console_told(&console);
    }
    return 1;
}

/* -- files */

static int take_name(void) {
    p11_size length = 0;
    if (p11_console_name(&console, (uint8_t *)name, ROOM, &length) != P11_DONE) return 0;
    name[length] = 0;
    return strlen(name) == length;
}

static void fetch(void) {
    uint32_t replaces = 0, is_pack = 0, why = P11_FILE_MISSING;
    uint8_t *bytes = NULL;
    size_t size = 0;
    p11_console_request(&console, &replaces, &is_pack);
    if (take_name()) why = read_file(name, !is_pack && choices.script && strcmp(name, choices.script) == 0, &bytes, &size);
    if (why != P11_FILE_WRITTEN) p11_console_missed(&console, why);
    else if (p11_console_fetched(&console, bytes, size) != P11_DONE) p11_console_missed(&console, P11_FILE_MEMORY);
    free(bytes);
}

/* Whether a drive's pack has sectors that were written since its mount, by the lines of `device`. */
static int has_changed(int drive) {
    char front[16], *line;
    unsigned long changed;
    p11_size length;
    snprintf(front, sizeof front, "DRIVE %d ", drive);
    if (p11_console_devices(&console, text, sizeof text - 1, &length) != P11_DONE) return 1;
    text[length] = 0;
    line = strstr((char *)text, front);
    return line && sscanf(line + strlen(front), "%*s cylinder %*u changed %lu", &changed) == 1 && changed > 0;
}

/* Keeps the pack of a drive, where no file has it, in a new file beside its own. */
static void keep(int drive, const uint8_t *image, size_t size) {
    char beside[ROOM], kept[ROOM + 16];
    if (!has_changed(drive) || saved_sums[drive] == sum_of(image, size)) return;
    snprintf(beside, sizeof beside, "%s.rescue", strncmp(packs[drive], "/dev/", 5) == 0 ? "pack" : packs[drive]);
    if (new_name(beside, kept, sizeof kept, is_free) >= 0 && replace_file(kept, image, size) == P11_FILE_WRITTEN)
        fprintf(stderr, "terminal: the pack on drive %d is kept in %s\r\n", drive, kept);
    else
        fprintf(stderr, "terminal: the pack on drive %d can't be kept in %s\r\n", drive, beside);
}

/* Whether a name is that of a pack which this dialogue has mounted or saved. */
static int is_own(void) {
    int drive;
    for (drive = 0; drive < DRIVES; drive++)
        if (strcmp(packs[drive], name) == 0) return 1;
    return 0;
}

static void put(void) {
    uint32_t replaces = 0, is_pack = 0, why = P11_FILE_MEMORY;
    uint8_t *image = malloc(PACK);
    p11_size size = 0;
    p11_console_request(&console, &replaces, &is_pack);
    if (!take_name()) why = P11_FILE_MISSING;
    else if (image && p11_console_image(&console, image, PACK, &size) == P11_DONE) {
        if (is_cut_off) keep(name[0] - '0', image, size), why = P11_FILE_WRITTEN;
        else why = !replaces && !is_own() && is_file(name) ? P11_FILE_THERE : replace_file(name, image, size);
        last_sum = sum_of(image, size);
    }
    free(image);
    p11_console_put(&console, why);
}

static void take_listed(const char *found) {
    size_t length = strlen(found), used = strlen(name);
    if (used + length + 2 < sizeof name) sprintf(name + used, "%s\n", found);
}

static void give_names(void) {
    char front[ROOM + 1];
    p11_size length = 0;
    size_t at;
    if (p11_console_front(&console, (uint8_t *)front, ROOM, &length) != P11_DONE) length = 0;
    front[length] = name[0] = 0;
    names_of(front, take_listed);
    length = strlen(name);
    for (at = 0; at < length; at++)
        if (name[at] == '\n') name[at] = 0;
    p11_console_names(&console, (const uint8_t *)name, length ? length - 1 : 0);
}

/* -- the person */

/* The person is gone: a run ends, each pack that no file has is kept, and no key comes any more. */
static void cut_off(void) {
    char line[32];
    int drive;
    if (is_cut_off) return;
    is_cut_off = 1;
    p11_console_keys(&console, (const uint8_t *)"\005\025", 2);
    for (drive = 0; drive < DRIVES && !choices.values[NO_SAVE]; drive++)
        if (packs[drive][0] && snprintf(line, sizeof line, "save %d %d\r", drive, drive) > 0)
            p11_console_keys(&console, (const uint8_t *)line, strlen(line));
    p11_console_closed(&console);
}

/* Reads what is typed: whether anything came. */
static int take_keys(int milliseconds) {
    long count;
    if (is_cut_off || (is_typed && !waits_for_keys(milliseconds))) return 0;
    count = read_some(0, text, sizeof text);
    if (count > 0) p11_console_keys(&console, text, (p11_size)count);
    else if (is_typed) cut_off();
    else p11_console_closed(&console);
    return 1;
}

static void look_at_terminal(void) {
    static unsigned known;
    if (!is_typed || is_cut_off) return;
    if (ending_signal() || !is_terminal()) cut_off();
    if (columns()) p11_console_resized(&console, columns());
    if (known != returns()) p11_console_redrawn(&console);
    known = returns();
}

static int converse(uint32_t slice) {
    uint64_t looked = 0;
    uint32_t want = P11_WANTS_STEP, status = 1;
    int left = LAST_STEPS;
    while (want != P11_WANTS_END && (!is_cut_off || left-- > 0)) {
        if (p11_console_step(&console, slice, &want) != P11_DONE) return fail(3, "no memory");
        if (want == P11_WANTS_STEP && now() - looked < LOOK_MS) continue;
        if (!show() && (is_torn = 1, !is_typed)) return fail(1, "write fault");
        if (is_torn && is_typed) cut_off();
        looked = now();
        if (want == P11_WANTS_MEMORY) return fail(3, "no memory");
        if (want == P11_WANTS_FETCH) fetch();
        if (want == P11_WANTS_PUT) put();
        if (want == P11_WANTS_NAMES) give_names();
        if (want == P11_WANTS_STEP || want == P11_WANTS_KEYS || want == P11_WANTS_IDLE) look_at_terminal();
        if (want == P11_WANTS_STEP && is_typed) take_keys(0);
        if ((want == P11_WANTS_KEYS || want == P11_WANTS_IDLE) && !take_keys(PAUSE_MS)) p11_console_paused(&console);
    }
    show();
    p11_console_status(&console, &status);
    return is_torn ? 1 : ending_signal() ? 128 + ending_signal() : is_cut_off ? 1 : (int)status;
}

/* -- the beginning */

static int open_record(uint32_t kwords, uint32_t lines) {
    static char found[ROOM + 16];
    const char *about = getenv("P11_ABOUT");
    if (!choices.values[RECORD]) return 1;
    record = new_name(choices.values[RECORD], found, sizeof found, make_file);
    if (record < 0) return 0;
    if (strcmp(found, choices.values[RECORD]) != 0)
        fprintf(stderr, "terminal: %s is there: the record goes to %s\n", choices.values[RECORD], found);
    snprintf((char *)text, sizeof text, "# %.1000s; --memory %u --lines %u\n", about ? about : "terminal in C", kwords, lines);
    return append(record, text, strlen((char *)text));
}

/* The lines of earlier dialogues. */
static int open_past(void) {
    uint8_t *bytes = NULL, *line, *end;
    size_t size = 0;
    uint32_t why;
    if (!choices.values[HISTORY]) return 1;
    why = read_file(choices.values[HISTORY], 1, &bytes, &size);
    for (line = bytes; line && line < bytes + size; line = end + 1) {
        end = memchr(line, '\n', (size_t)(bytes + size - line));
        end = end ? end : bytes + size;
        if (end > line && end - line <= ROOM) p11_console_remember(&console, line, (p11_size)(end - line));
    }
    free(bytes);
    past = open_to_append(choices.values[HISTORY]);
    return past >= 0 && (why == P11_FILE_WRITTEN || why == P11_FILE_MISSING);
}

int main(int argc, char **argv) {
    uint32_t kwords, lines, slice, manner;
    int status = read_options(&PROGRAM, argc, argv, &choices);
    if (status >= 0) return status;
    ignore_limits();
    kwords = number_of(choices.values[MEMORY], 28);
    lines = number_of(choices.values[LINES], 1024);
    slice = number_of(choices.values[SLICE], 1000000);
    if (slice == 0 || slice > MOST_TURNS) return fail(2, "a slice has 1 to 100000000 turns");
    is_typed = !choices.values[BATCH] && is_terminal();
    manner = choices.values[BATCH] ? P11_BATCH : is_typed ? P11_TYPED : P11_GIVEN;
    status = p11_console_new(kwords, lines, manner, choices.values[STRICT] != NULL, choices.values[NO_SAVE] != NULL,
                             choices.values[TALK] != NULL, &console);
    if (status == P11_BAD_SIZE) return fprintf(stderr, "? 15 BadSize\n"), 2;
    if (status != P11_DONE) return fail(3, "no memory");
    if (choices.values[FILES] && !confine(choices.values[FILES])) return fail(1, "the folder of --files isn't there");
    if (choices.script) p11_console_open(&console, (const uint8_t *)choices.script, strlen(choices.script));
    if (!open_past()) return fail(1, "the history's file can't be read and written");
    if (!open_record(kwords, lines)) return fail(1, "the record's file can't be made");
    if (is_typed) set_terminal();
    status = converse(slice);
    if (is_typed) put_terminal_back();
    p11_console_drop(&console);
    return status;
}
