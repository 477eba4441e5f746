/* An image has a head, the lists of symbols, and the kinds, heads and tails of the cells up to the last one in use. */
#include "pack.h"

#include "catalogue.h"
#include "evaluator.h"
#include "functions.h"
#include "talk.h"
#include "text.h"

#define MARK 0x4c31
#define PAGE 22

/* What an image begins with. An image of a Lisp with other functions isn't taken. */
struct image_head {
    uint16 mark;
    int16 cells;
    uint32 functions;
    value symbols[SYMBOL_LISTS];
};

static struct file file;
static byte buffer[BLOCK];
static uint16 next_block, at;
static enum { NOTHING, TEXT, IMAGE } open;
static struct image_head image;
static uint32 left;

static int16 is_name(value v, char *name) {
    if (!is_a(STRING, v)) {
        fault_about(v, "isn't a file's name: write it as \"MINE\"");
        return 0;
    }
    copy_string(v, name, NAME + 2);
    return 1;
}

static void check(int16 error) {
    if (error < 0) fault(why(error));
}

/* A sum of the names of all functions, in their order. */
static uint32 functions_sum(void) {
    uint32 sum = 1;
    int16 number;
    for (number = 0; number < function_count; number++) {
        const char *name = function_name(number);
        while (*name) sum = sum * 31 + (byte)*name++;
    }
    return sum;
}

/* Bytes into the file that is being written, a block at a time. */
static void write_bytes(const void *from, uint16 length) {
    const byte *byte_at = from;
    while (length-- && !wrong) {
        buffer[at++] = *byte_at++;
        if (at < BLOCK) continue;
        check(write_part(&file, next_block++, buffer));
        at = 0;
    }
}

static void read_bytes(void *to, uint16 length) {
    byte *byte_at = to;
    while (length-- && !wrong) {
        if (at == BLOCK) {
            check(read_part(&file, next_block++, buffer));
            at = 0;
        }
        *byte_at++ = buffer[at++];
    }
}

/* How many bytes an image of so many cells has. */
static uint32 size_of(int16 cells) {
    return sizeof(struct image_head) + (uint32)cells * (2 * sizeof(value) + 1);
}

value do_save(value given) {
    char name[NAME + 2];
    uint32 size;
    if (!is_name(head(given), name)) return NIL;
    /* neither what is being evaluated nor this call is in the image */
    collect();
    image.mark = MARK;
    image.cells = cells_used();
    image.functions = functions_sum();
    copy(image.symbols, symbols, sizeof symbols);
    size = size_of(image.cells);
    check(begin_file(&file, name, FILE_IMAGE, (uint16)((size + BLOCK - 1) / BLOCK)));
    if (wrong) return NIL;
    next_block = at = 0;
    write_bytes(&image, sizeof image);
    write_bytes(kinds, (uint16)image.cells);
    write_bytes(heads, (uint16)(image.cells * 2));
    write_bytes(tails, (uint16)(image.cells * 2));
    if (!wrong && at) check(write_part(&file, next_block, buffer));
    if (!wrong) check(end_file(&file, (uint16)((size - 1) % BLOCK + 1)));
    return head(given);
}

void image_take(void) {
    open = NOTHING;
    expression = scope = result = call = NIL;
    copy(symbols, image.symbols, sizeof symbols);
    read_bytes(kinds, (uint16)image.cells);
    read_bytes(heads, (uint16)(image.cells * 2));
    read_bytes(tails, (uint16)(image.cells * 2));
    if (wrong) {
        heap_begin();
        evaluator_begin();
        return;
    }
    cells_set(image.cells);
    evaluator_symbols();
}

/* Whether what was read in front of a file is an image's head; one of another Lisp is a fault. */
static int16 is_image(void) {
    if (image.mark != MARK) return 0;
    if (image.functions != functions_sum() || image.cells < 2 || image.cells > CELLS ||
        file_size(&file) != size_of(image.cells))
        fault("the image was saved by another Lisp");
    return 1;
}

/* From the file's first byte on. */
static void begin_reading(void) {
    next_block = 0;
    at = BLOCK;
    left = file_size(&file);
}

/* Opens the file of a name: whether it can be read. */
static int16 is_found(value v) {
    char name[NAME + 2];
    if (!is_name(v, name)) return 0;
    if (open) fault("a file can't load another one");
    check(find_file(name, &file));
    if (!wrong && file.kind == FILE_PROGRAM) fault("the file is a program");
    if (!wrong) begin_reading();
    return !wrong;
}

value do_load(value given) {
    if (!is_found(head(given))) return NIL;
    fill(&image, 0, sizeof image);
    if (left >= sizeof image) read_bytes(&image, sizeof image);
    if (is_image()) {
        open = IMAGE;
    } else {
        open = TEXT;
        begin_reading();
    }
    if (wrong) open = NOTHING;
    return NIL;
}

/* Types a text, and waits for a key behind each page. */
value do_type(value given) {
    int16 c, lines = 0;
    if (!is_found(head(given))) return NIL;
    while (!is_stopped() && (c = text_character()) >= 0) {
        put((char)c);
        if (c != '\n' || ++lines % PAGE) continue;
        text("-- a key goes on, Q ends --");
        c = next_key();
        text("\r                           \r");
        if (c == CONTROL_C || capital((char)c) == 'Q') break;
    }
    return NIL;
}

int16 image_is_open(void) {
    return open == IMAGE;
}

int16 text_is_open(void) {
    return open == TEXT;
}

int16 text_character(void) {
    byte c;
    if (!left || wrong) return -1;
    left--;
    read_bytes(&c, 1);
    return c;
}

void text_end(void) {
    open = NOTHING;
}

value do_files(value given) {
    struct file one;
    int16 entry = 0, width;
    (void)given;
    while ((entry = next_file(entry, &one)) > 0) {
        if (one.kind == FILE_PROGRAM) continue;
        width = file_name(one.name);
        while (width++ < 14) put(' ');
        number((int32)file_size(&one));
        text(one.kind == FILE_TEXT ? " bytes of text\n" : " bytes\n");
    }
    check(entry);
    return NIL;
}

value do_bye(value given) {
    leave();
    return given;
}
