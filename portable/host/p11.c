/* p11: a PDP-11/40 under an operator's script, over the files that it names: the calls of pdp1140.h, and what reads and writes around
 * them. Exit status: 0 at the script's end; 1 if it can't be read to its end, or an answer can't be written; 2 if the command line is
 * refused; 3 if there is no memory for the machine. */
#include "pdp1140.h"

#include <stdio.h>
#include <stdlib.h>
#include <string.h>

#include "help.h"
#include "options.h"
#include "system.h"

/* A line has 4,096 bytes at most; of a longer one as many are kept as tell that, with a CR and an LF behind them. */
enum { MOST_LINE = 4096, KEPT = MOST_LINE + 2, MOST_READS = 999999, MOST_NAME = 255 };
enum { MEMORY, LINES, FILES, NO_SAVE };

static const struct program PROGRAM = {
    "p11",
    HELP_P11,
    1,
    {{"memory", "K", 1, 0, 0}, {"lines", "N", 1, 0, 0}, {"files", "FOLDER", 0, 0, 0}, {"no-save", 0, 0, 0, 0}, {0, 0, 0, 0, 0}}};

static struct p11_handle machine;
static int is_saveless;

static int fail(int status, const char *why) {
    fprintf(stderr, "p11: %s\n", why);
    return status;
}

/* The word of a line with this number, from 0 on: its length, and where it begins. */
static size_t word_of(const uint8_t *line, size_t length, int number, const uint8_t **word) {
    size_t at = 0, size = 0;
    for (; number >= 0; number--) {
        at += size;
        while (at < length && (line[at] == ' ' || line[at] == '\t')) at++;
        for (size = 0; at + size < length && !memchr(" \t\r\n", line[at + size], 4); size++) continue;
    }
    *word = line + at;
    return size;
}

/* The name of the file that a line reads (mount, load) or writes (save), if it is such a line. */
static int file_of(const uint8_t *line, size_t length, int reads, char *name) {
    const uint8_t *verb, *word;
    size_t size = word_of(line, length, 0, &verb);
    int is_load = reads && size == 4 && memcmp(verb, "load", 4) == 0;
    int is_mount = reads && size == 5 && memcmp(verb, "mount", 5) == 0;
    if (!is_load && !is_mount && !(!reads && size == 4 && memcmp(verb, "save", 4) == 0)) return 0;
    size = word_of(line, length, is_load ? 1 : 2, &word);
    if (size == 0 || size > MOST_NAME || memchr(word, 0, size)) return 0;
    memcpy(name, word, size);
    name[size] = 0;
    return 1;
}

/* Puts the file that a line reads into the machine's store. 0: there is no memory for it. */
static int give_file(const char *name) {
    uint8_t *bytes = NULL;
    size_t size = 0;
    uint32_t fault = read_file(name, 0, &bytes, &size);
    int is_kept = fault != P11_FILE_MEMORY;
    if (fault == P11_FILE_WRITTEN)
        is_kept = p11_put_file(&machine, (const uint8_t *)name, strlen(name), bytes, size) == P11_DONE;
    free(bytes);
    return is_kept;
}

/* Writes the pack that a line has saved in the machine's store to its file: whether that was done. */
static int take_file(const char *name) {
    const uint8_t *key = (const uint8_t *)name;
    p11_size size = 0;
    uint8_t none[1], *bytes;
    int is_written = 0;
    if (is_saveless) return 1;
    if (p11_file(&machine, key, strlen(name), none, 0, &size) != P11_TOO_SMALL) return 0;
    bytes = malloc(size);
    if (bytes && p11_file(&machine, key, strlen(name), bytes, size, &size) == P11_DONE)
        is_written = replace_file(name, bytes, size) == P11_FILE_WRITTEN;
    free(bytes);
    return is_written;
}

/* The text of the last line's answer, in a room that grows; null without memory for it. */
static const uint8_t *answer(p11_size *length) {
    static uint8_t *text;
    static p11_size room;
    while (p11_answer(&machine, text ? text : (uint8_t *)"", room, length) == P11_TOO_SMALL) {
        uint8_t *more = realloc(text, *length);
        if (!more) return NULL;
        text = more;
        room = *length;
    }
    return text ? text : (const uint8_t *)"";
}

static int write_text(const char *text) { return write_all((const uint8_t *)text, strlen(text)); }

/* Does a line, with its LF if it has one, and writes the answer: whether it could be written. */
static int do_line(const uint8_t *line, size_t length) {
    char name[MOST_NAME + 1];
    const uint8_t *text;
    p11_size size = 0;
    int is_written;
    int has_file = file_of(line, length, 1, name);
    if (has_file && !give_file(name)) return write_text("? 12 NoMemory\n");
    p11_line(&machine, line, length);
    if (has_file) p11_forget(&machine, (const uint8_t *)name, strlen(name));
    text = answer(&size);
    if (!text) return write_text("? 12 NoMemory\n");
    if (size != 3 || memcmp(text, "OK\n", 3) != 0 || !file_of(line, length, 0, name)) return write_all(text, size);
    is_written = take_file(name);
    p11_forget(&machine, (const uint8_t *)name, strlen(name));
    return write_text(is_written ? "OK\n" : "? 14 StoreFault\n");
}

/* Does the lines that are read, each as soon as it has its end. */
static int play(int script) {
    static uint8_t bytes[4096], line[KEPT + 1];
    size_t length = 0;
    long reads, count, at;
    for (reads = 0; (count = read_some(script, bytes, sizeof bytes)) > 0; reads++) {
        if (reads == MOST_READS) return fail(1, "script too long");
        for (at = 0; at < count; at++) {
            if (length < KEPT || bytes[at] == '\n') line[length++] = bytes[at];
            if (bytes[at] != '\n') continue;
            if (!do_line(line, length)) return fail(1, "write fault");
            length = 0;
        }
    }
    if (count < 0) return fail(1, "read fault");
    return length == 0 || do_line(line, length) ? 0 : fail(1, "write fault");
}

/* Whether the last word names a session that is packed in one file, which as-packed unpacks and gives to this program. */
static int is_packed(int argc, char **argv) {
    size_t length = argc > 1 ? strlen(argv[argc - 1]) : 0;
    return length > 5 && strcmp(argv[argc - 1] + length - 5, ".p11z") == 0;
}

int main(int argc, char **argv) {
    static const uint8_t none[1];
    struct choices choices;
    int script, status;
    if (is_packed(argc, argv)) return run_beside("as-packed", argc, argv), fail(1, "as-packed isn't beside the program");
    status = read_options(&PROGRAM, argc, argv, &choices);
    if (status >= 0) return status;
    ignore_limits();
    is_saveless = choices.values[NO_SAVE] != NULL;
    status = p11_new(number_of(choices.values[MEMORY], 28), number_of(choices.values[LINES], 1024), none, 0, &machine);
    if (status == P11_BAD_SIZE) return fprintf(stderr, "? 15 BadSize\n"), 2;
    if (status != P11_DONE) return fail(3, "no memory");
    if (choices.values[FILES] && !confine(choices.values[FILES])) return fail(1, "the folder of --files isn't there");
    script = open_script(choices.script);
    status = script < 0 ? fail(1, "read fault") : play(script);
    p11_drop(&machine);
    return status;
}
