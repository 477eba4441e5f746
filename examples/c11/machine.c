/* What machine.h promises, by the device registers; services.s has the entry of each service. */
#include "machine.h"

#define RKER WORD(0177402)
#define RKCS WORD(0177404)
#define RKWC WORD(0177406)
#define RKBA WORD(0177410)
#define RKDA WORD(0177412)
#define RCSR WORD(0177560)
#define RBUF WORD(0177562)

#define READY 0200
#define WRITE_GO 3
#define READ_GO 5
#define SERVICES 16

int16 has_key(void) {
    return (RCSR & READY) != 0;
}

int16 key(void) {
    while (!has_key()) continue;
    return (int16)(RBUF & 0177);
}

/* Moves a block between the disk and memory; a control reset takes an error away. */
static uint16 move(uint16 block, uint16 at, uint16 function) {
    uint16 error;
    RKDA = (uint16)(block / 12 * 16 + block % 12);
    RKBA = at;
    RKWC = (uint16)-256;
    RKCS = function;
    while (!(RKCS & READY)) continue;
    error = RKER;
    if (error) RKCS = 1;
    return error;
}

uint16 read_block(uint16 block, void *to) {
    return move(block, (uint16)to, READ_GO);
}

uint16 write_block(uint16 block, const void *from) {
    return move(block, (uint16)from, WRITE_GO);
}

void service(void);
void (*handlers[SERVICES])(struct stopped *at);
static uint16 used;

void on_service(uint16 vector, void (*handler)(struct stopped *at)) {
    uint16 number = WORD(vector) == (uint16)service ? WORD(vector + 2) & 017 : used++;
    handlers[number] = handler;
    WORD(vector) = (uint16)service;
    WORD(vector + 2) = 0340 | number;
}
