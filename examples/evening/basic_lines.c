/* The lines of the program: put in, listed, saved on the pack and loaded from it. */
#include "basic.h"
#include "catalogue.h"
#include "talk.h"

#define LINE_HEAD 3
/* A line of a file: one that was typed, and a blank behind its number. */
#define LONGEST_LINE (LINE + 2)

uint16 program_end = PROGRAM;

const char *line_text(uint16 at_line) {
    return (const char *)memory + at_line + LINE_HEAD;
}

uint16 line_behind(uint16 at_line) {
    return (uint16)(at_line + LINE_HEAD + memory[at_line + 2]);
}

uint16 line_number(uint16 at_line) {
    return word_at(at_line);
}

uint16 line_from(uint16 wanted) {
    uint16 found;
    for (found = PROGRAM; found < program_end && line_number(found) < wanted;) found = line_behind(found);
    return found;
}

void new_program(void) {
    program_end = PROGRAM;
    clear_variables();
}

/* Takes the line at an address out. */
static void take_out(uint16 found) {
    uint16 next = line_behind(found);
    copy(memory + found, memory + next, (uint16)(program_end - next));
    program_end = (uint16)(program_end - (next - found));
}

void put_line(uint16 number_of_it, const char *text_of_it) {
    uint16 found = line_from(number_of_it), length = 0, bytes, from;
    while (text_of_it[length]) length++;
    if (found < program_end && line_number(found) == number_of_it) take_out(found);
    bytes = (uint16)(length + 1 + LINE_HEAD);
    if (length && bytes > SIZE - program_end) fail("The memory is full", "SAVE the program, and take lines out");
    else if (length) {
        for (from = program_end; from > found;) {
            from--;
            memory[from + bytes] = memory[from];
        }
        set_word(found, number_of_it);
        memory[found + 2] = (byte)(length + 1);
        copy(memory + found + LINE_HEAD, text_of_it, (uint16)(length + 1));
        program_end = (uint16)(program_end + bytes);
    }
    clear_variables();
}

/* Whether a word is here; for REM, which ends the capitals. */
static int16 begins(const char *here, const char *wanted) {
    while (*wanted)
        if (capital(*here++) != *wanted++) return 0;
    return 1;
}

void capitals(char *text_of_it) {
    int16 quoted = 0;
    for (; *text_of_it; text_of_it++) {
        if (*text_of_it == '"') quoted = !quoted;
        if (quoted) continue;
        if (*text_of_it == '\'') return;
        if (begins(text_of_it, "REM")) {
            copy(text_of_it, "REM", 3);
            return;
        }
        *text_of_it = capital(*text_of_it);
    }
}

void list(uint16 first, uint16 last) {
    uint16 found;
    for (found = line_from(first); found < program_end && line_number(found) <= last; found = line_behind(found)) {
        number(line_number(found));
        put(' ');
        text(line_text(found));
        put('\n');
        if (interrupted()) {
            stop_wanted = 1;
            return;
        }
    }
}

static void tell(int16 fault, const char *instead) {
    fail(why(fault), instead);
}

/* A file that is written byte by byte; first only counted. */
static struct file made;
static byte buffer[BLOCK];
static uint32 bytes_out;
static int16 is_counting, write_fault;

static void write_byte(byte c) {
    uint16 in_block = (uint16)(bytes_out % BLOCK);
    buffer[in_block] = c;
    bytes_out++;
    if (in_block + 1 < BLOCK || is_counting || write_fault) return;
    write_fault = write_part(&made, (uint16)((bytes_out - 1) / BLOCK), buffer);
    fill(buffer, 0, BLOCK);
}

static void write_number(uint16 n) {
    if (n > 9) write_number(n / 10);
    write_byte((byte)('0' + n % 10));
}

static void write_lines(void) {
    uint16 found;
    bytes_out = 0;
    fill(buffer, 0, BLOCK);
    for (found = PROGRAM; found < program_end; found = line_behind(found)) {
        const char *c;
        write_number(line_number(found));
        write_byte(' ');
        for (c = line_text(found); *c; c++) write_byte((byte)*c);
        write_byte('\n');
    }
}

void save(const char *name) {
    uint16 last;
    if (program_end == PROGRAM) {
        fail("There is no program to save", "Type its lines, each with a number: 10 PRINT \"HELLO\"");
        return;
    }
    is_counting = 1;
    write_lines();
    is_counting = 0;
    write_fault = begin_file(&made, name, FILE_TEXT, (uint16)((bytes_out + BLOCK - 1) / BLOCK));
    if (!write_fault) write_lines();
    last = (uint16)(bytes_out % BLOCK);
    if (!write_fault && last) write_fault = write_part(&made, (uint16)(bytes_out / BLOCK), buffer);
    if (!write_fault) write_fault = end_file(&made, last ? last : BLOCK);
    if (write_fault) tell(write_fault, "Nothing was saved; CAT shows the files");
}

/* Puts a line of a file in; whether it has a number. */
static int16 take_line(char *from) {
    const char *behind = from;
    int16 n;
    while (*behind == ' ') behind++;
    if (!*behind) return 1;
    if (!read_number(&behind, &n) || n < 1) return 0;
    while (*behind == ' ') behind++;
    capitals((char *)behind);
    put_line((uint16)n, behind);
    return 1;
}

/* Tells that a file is no program, or that it can't be read. */
static void stop_loading(int16 fault) {
    if (fault) tell(fault, "LIST shows what was read");
    else fail("That is no program of BASIC", "Each line has to begin with a number, and to be short enough to be typed");
}

/* Puts the lines of a file in. */
static void load_lines(const struct file *file) {
    static char typed[LONGEST_LINE];
    uint32 left = file_size(file);
    uint16 length = 0, block = 0, in_block = BLOCK;
    while (left-- && !failed) {
        int16 fault = in_block == BLOCK ? read_part(file, block++, buffer) : 0;
        in_block = (uint16)(in_block == BLOCK ? 0 : in_block);
        if (fault) {
            stop_loading(fault);
            return;
        }
        typed[length++] = (char)buffer[in_block++];
        if (typed[length - 1] == '\n' || !left) {
            if (typed[length - 1] == '\n') length--;
            typed[length] = 0;
            length = 0;
            if (!take_line(typed)) stop_loading(0);
        } else if (length == LONGEST_LINE - 1) stop_loading(0);
    }
}

void load(const char *name) {
    struct file file;
    int16 fault = find_file(name, &file);
    if (fault) tell(fault, "CAT shows the files");
    else if (file.kind != FILE_TEXT) fail("That is no text", "CAT shows the files; a program of BASIC is a text");
    else {
        new_program();
        load_lines(&file);
    }
}
