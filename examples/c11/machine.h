/* The machine under a program in C: keys, blocks of the disk, traps and interrupts. */
#ifndef MACHINE_H
#define MACHINE_H

#include "small.h"

/* The word at an address of memory or of the I/O page. */
#define WORD(address) (*(volatile uint16 *)(address))

/* Whether a key waits; and the next key, in 7 bits, for which it waits. */
int16 has_key(void);
int16 key(void);

/* Reads or writes a block of drive 0, which is a sector of 512 bytes, 0 to 4871. The answer is 0, or what RKER says. The
 * program itself begins at block 1 of its pack. */
uint16 read_block(uint16 block, void *to);
uint16 write_block(uint16 block, const void *from);

/* Where a trap or an interrupt came: PC and the status word, which are taken up again behind the handler. */
struct stopped {
    uint16 pc, ps;
};

/* Lets a function of C serve a vector (4, 60, 100 octal and so on; at most 16), at priority 7. */
void on_service(uint16 vector, void (*handler)(struct stopped *at));

#endif
