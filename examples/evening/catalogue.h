/* The files of the pack, by name. A file is one run of blocks of 512 bytes. A file that is written takes its place only
 * once all its blocks are on the pack, by one write of one block of the catalogue: whenever the machine stops, the file is
 * the old one or the new one. What belongs to the pack, its programs and the blocks of one, is neither written nor deleted.
 *
 * A call answers 0 (or what it says), or one of the faults below, which is less than 0; why() says it in words. */
#ifndef CATALOGUE_H
#define CATALOGUE_H

#include "small.h"

enum { FILE_PROGRAM = 1, FILE_TEXT, FILE_DATA, FILE_BLOCKS, FILE_IMAGE, FILE_GAME };
enum { NO_FILE = -1, BAD_NAME = -2, NO_ROOM = -3, TOO_MANY = -4, TOO_LONG = -5, PROTECTED = -6, DISK_FAILS = -7, OF_PACK = -8, OTHER_KIND = -9 };

#define BLOCK 512
#define NAME 12
#define TITLE 44

/* An entry of the catalogue. A name has 1 to 12 letters, digits, points and hyphens, and is kept in capital letters; what
 * is left of it is bytes of 0. LAST is how many bytes of its last block belong to the file, 1 to 512; a file without a byte
 * has no block. The menu lists a FILE_PROGRAM with its title. */
struct file {
    char name[NAME];
    uint16 kind, first, blocks, last;
    char title[TITLE];
};

/* The file of a name. */
int16 find_file(const char *name, struct file *found);

/* The first file from an entry of the catalogue on; begin at 0. The answer is the entry from which to ask for the next file,
 * or 0 if there is none. */
int16 next_file(int16 entry, struct file *found);

/* How many bytes a file has. */
uint32 file_size(const struct file *file);

/* Reads a block of a file, 0 on. */
int16 read_part(const struct file *file, uint16 block, void *to);

/* Reads a file whole; its length. TOO_LONG: it has more than ROOM bytes, and nothing was read. */
int16 read_file(const char *name, void *to, uint16 room, uint16 *length);

/* Writes a file whole, in place of the one of that name, which has to be of the same kind. */
int16 write_file(const char *name, uint16 kind, const void *from, uint16 length);

/* Writes a file by blocks: room for so many, each of them in any order, and the file is there by end_file, with LAST bytes
 * in its last block (512 for all). Write no other file before that. */
int16 begin_file(struct file *made, const char *name, uint16 kind, uint16 blocks);
int16 write_part(const struct file *made, uint16 block, const void *from);
int16 end_file(struct file *made, uint16 last);

/* Takes a file away. */
int16 delete_file(const char *name);

/* How many blocks are free, and how many of them one file could have. */
int16 free_blocks(uint16 *all, uint16 *longest);

/* What a fault is, and what to do: "There is no such file". */
const char *why(int16 fault);

/* Types a name, which need not end in a 0; its length. */
int16 file_name(const char *name);

/* Types the catalogue, a line for each file, and what is free; 1 if Ctrl-C ended it. */
int16 show_files(void);

#endif
