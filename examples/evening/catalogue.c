/* What catalogue.h promises. The catalogue is 16 blocks of 8 entries each, an entry with no name is free; the files lie
 * behind it. What is free on the pack follows from the entries alone. */
#include "catalogue.h"
#include "machine.h"
#include "talk.h"

#define CATALOGUE 32
#define CATALOGUE_BLOCKS 16
#define IN_BLOCK 8
#define ENTRIES (CATALOGUE_BLOCKS * IN_BLOCK)
#define FILES 48
#define PACK_BLOCKS 4872
#define WRITE_LOCK 020000

/* The block of the catalogue that is in memory, and its number, or 0; a block of a file. Blocks are at even addresses. */
static struct file entries[IN_BLOCK];
static uint16 loaded;
static uint16 part[BLOCK / 2];
/* Which blocks of the pack are used, a bit each. */
static byte used[PACK_BLOCKS / 8];

static int16 fault_of(uint16 error) {
    if (!error) return 0;
    return (int16)(error & WRITE_LOCK ? PROTECTED : DISK_FAILS);
}

/* The entry of a number, or 0 if its block can't be read. */
static struct file *entry_at(int16 number) {
    uint16 block = (uint16)(CATALOGUE + number / IN_BLOCK);
    if (loaded != block) {
        loaded = 0;
        if (read_block(block, entries)) return 0;
        loaded = block;
    }
    return entries + number % IN_BLOCK;
}

/* Writes the block of the catalogue that is in memory. */
static int16 write_entries(void) {
    uint16 block = loaded;
    int16 fault = fault_of(write_block(block, entries));
    if (fault) loaded = 0;
    return fault;
}

static char in_name(char c) {
    if (c >= 'a' && c <= 'z') return (char)(c - 'a' + 'A');
    if ((c >= 'A' && c <= 'Z') || (c >= '0' && c <= '9') || c == '.' || c == '-') return c;
    return 0;
}

/* A name as an entry has it. */
static int16 named(const char *name, char *to) {
    int16 length = 0;
    fill(to, 0, NAME);
    while (length < NAME && name[length]) {
        to[length] = in_name(name[length]);
        if (!to[length]) return BAD_NAME;
        length++;
    }
    return (int16)(length && (length == NAME ? !name[NAME] : 1) ? 0 : BAD_NAME);
}

/* The number of the entry of a name, or a fault. */
static int16 number_of(const char *name) {
    char wanted[NAME];
    int16 number;
    if (named(name, wanted)) return BAD_NAME;
    for (number = 0; number < ENTRIES; number++) {
        struct file *entry = entry_at(number);
        if (!entry) return DISK_FAILS;
        if (same(entry->name, wanted, NAME)) return number;
    }
    return NO_FILE;
}

int16 find_file(const char *name, struct file *found) {
    int16 number = number_of(name);
    const struct file *entry;
    if (number < 0) return number;
    entry = entry_at(number);
    if (!entry) return DISK_FAILS;
    copy(found, entry, sizeof *found);
    return 0;
}

int16 next_file(int16 entry, struct file *found) {
    for (; entry < ENTRIES; entry++) {
        struct file *at = entry_at(entry);
        if (!at) return DISK_FAILS;
        if (!at->name[0]) continue;
        copy(found, at, sizeof *found);
        return (int16)(entry + 1);
    }
    return 0;
}

uint32 file_size(const struct file *file) {
    return file->blocks ? (uint32)(file->blocks - 1) * BLOCK + file->last : 0;
}

int16 read_part(const struct file *file, uint16 block, void *to) {
    int16 fault;
    if (block >= file->blocks) return TOO_LONG;
    fault = fault_of(read_block((uint16)(file->first + block), part));
    if (!fault) copy(to, part, BLOCK);
    return fault;
}

int16 read_file(const char *name, void *to, uint16 room, uint16 *length) {
    struct file file;
    uint16 block, at = 0;
    int16 fault = find_file(name, &file);
    if (fault) return fault;
    if (file_size(&file) > room) return TOO_LONG;
    for (block = 0; block < file.blocks; block++) {
        uint16 bytes = block + 1 == file.blocks ? file.last : BLOCK;
        fault = fault_of(read_block((uint16)(file.first + block), part));
        if (fault) return fault;
        copy((byte *)to + at, part, bytes);
        at = (uint16)(at + bytes);
    }
    *length = at;
    return 0;
}

static int16 is_used(uint16 block) {
    return (used[block >> 3] & (1 << (block & 7))) != 0;
}

/* Marks all that the entries have. */
static int16 mark_used(void) {
    int16 number;
    fill(used, 0, sizeof used);
    for (number = 0; number < ENTRIES; number++) {
        uint16 block, left;
        struct file *entry = entry_at(number);
        if (!entry) return DISK_FAILS;
        if (!entry->name[0]) continue;
        for (block = entry->first, left = entry->blocks; left && block < PACK_BLOCKS; left--, block++)
            used[block >> 3] |= (byte)(1 << (block & 7));
    }
    return 0;
}

/* The first run of so many free blocks, or 0. */
static uint16 free_run(uint16 blocks) {
    uint16 at, length = 0;
    for (at = FILES; at < PACK_BLOCKS; at++) {
        length = is_used(at) ? 0 : (uint16)(length + 1);
        if (length >= blocks) return (uint16)(at + 1 - length);
    }
    return 0;
}

int16 free_blocks(uint16 *all, uint16 *longest) {
    uint16 at, length = 0;
    int16 fault = mark_used();
    *all = *longest = 0;
    if (fault) return fault;
    for (at = FILES; at < PACK_BLOCKS; at++) {
        length = is_used(at) ? 0 : (uint16)(length + 1);
        if (length) ++*all;
        if (length > *longest) *longest = length;
    }
    return 0;
}

/* The number of the entry of a file that is to be changed, or a fault. */
static int16 changed(const char *name) {
    int16 number = number_of(name);
    const struct file *entry;
    if (number < 0) return number;
    entry = entry_at(number);
    if (!entry) return DISK_FAILS;
    return (int16)(entry->kind == FILE_PROGRAM || entry->kind == FILE_BLOCKS ? OF_PACK : number);
}

/* The entry for a name: the one that it has, or else one that is free; or a fault. */
static int16 entry_for(const char *name) {
    int16 number = changed(name);
    if (number != NO_FILE) return number;
    for (number = 0; number < ENTRIES; number++) {
        struct file *entry = entry_at(number);
        if (!entry) return DISK_FAILS;
        if (!entry->name[0]) return number;
    }
    return TOO_MANY;
}

int16 begin_file(struct file *made, const char *name, uint16 kind, uint16 blocks) {
    const struct file *entry;
    int16 fault = named(name, made->name);
    if (!fault) fault = entry_for(name);
    if (fault < 0) return fault;
    entry = entry_at(fault);
    if (!entry) return DISK_FAILS;
    if (entry->name[0] && entry->kind != kind) return OTHER_KIND;
    fault = mark_used();
    if (fault) return fault;
    fill(made->title, 0, TITLE);
    made->kind = kind;
    made->blocks = blocks;
    made->last = 0;
    made->first = blocks ? free_run(blocks) : FILES;
    return (int16)(made->first ? 0 : NO_ROOM);
}

int16 write_part(const struct file *made, uint16 block, const void *from) {
    if (block >= made->blocks) return TOO_LONG;
    copy(part, from, BLOCK);
    return fault_of(write_block((uint16)(made->first + block), part));
}

int16 end_file(struct file *made, uint16 last) {
    char name[NAME + 1];
    int16 number;
    struct file *entry;
    copy(name, made->name, NAME);
    name[NAME] = 0;
    number = entry_for(name);
    if (number < 0) return number;
    entry = entry_at(number);
    if (!entry) return DISK_FAILS;
    made->last = last;
    copy(entry, made, sizeof *made);
    return write_entries();
}

int16 write_file(const char *name, uint16 kind, const void *from, uint16 length) {
    struct file made;
    uint16 block, left = length, blocks = (uint16)(length / BLOCK + (length % BLOCK != 0));
    int16 fault = begin_file(&made, name, kind, blocks);
    for (block = 0; !fault && block < blocks; block++) {
        uint16 bytes = left < BLOCK ? left : BLOCK;
        fill(part, 0, BLOCK);
        copy(part, (const byte *)from + (length - left), bytes);
        fault = fault_of(write_block((uint16)(made.first + block), part));
        left = (uint16)(left - bytes);
    }
    return fault ? fault : end_file(&made, (uint16)(blocks ? length - (blocks - 1) * BLOCK : 0));
}

int16 delete_file(const char *name) {
    int16 number = changed(name);
    struct file *entry;
    if (number < 0) return number;
    entry = entry_at(number);
    if (!entry) return DISK_FAILS;
    fill(entry, 0, sizeof *entry);
    return write_entries();
}

const char *why(int16 fault) {
    switch (fault) {
    case NO_FILE: return "There is no such file";
    case BAD_NAME: return "A name has 1 to 12 letters, digits, points and hyphens";
    case NO_ROOM: return "There is no room on the pack: delete a file";
    case TOO_MANY: return "The catalogue is full: delete a file";
    case TOO_LONG: return "The file is too long";
    case PROTECTED: return "The pack is protected: mount it with rw";
    case OTHER_KIND: return "A file of that name is of another kind: take another name";
    case OF_PACK: return "That belongs to the pack: take another name";
    default: return "The disk fails";
    }
}

int16 file_name(const char *name) {
    int16 length = 0;
    while (length < NAME && name[length]) put(name[length++]);
    return length;
}

static const char *kind_name(uint16 kind) {
    switch (kind) {
    case FILE_PROGRAM: return "program";
    case FILE_TEXT: return "text";
    case FILE_BLOCKS: return "blocks of a program";
    case FILE_IMAGE: return "image of a Lisp";
    case FILE_GAME: return "saved game";
    default: return "data";
    }
}

/* Types a number behind blanks, 8 columns in all. */
static void columns(uint32 n) {
    uint32 power;
    for (power = 10000000; power > 1 && n < power; power /= 10) put(' ');
    number((int32)n);
}

int16 show_files(void) {
    struct file file;
    uint16 all, longest;
    int16 fault, entry = 0;
    while ((entry = next_file(entry, &file)) > 0) {
        int16 length = file_name(file.name);
        while (length++ < NAME) put(' ');
        columns(file_size(&file));
        text(" bytes  ");
        text(kind_name(file.kind));
        put('\n');
        if (interrupted()) return 1;
    }
    if (entry < 0) return entry;
    fault = free_blocks(&all, &longest);
    if (fault) return fault;
    number((int32)all * BLOCK);
    text(" bytes are free");
    if (longest < all) {
        text("; the longest file that fits has ");
        number((int32)longest * BLOCK);
    }
    text(".\n");
    return 0;
}
