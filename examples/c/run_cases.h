/* A PDP-11 as run_cases.c wants it: who tests a machine gives these six functions. Addresses are those of the bus, even, and
 * may be those of registers: 777774 (stack limit), 777572 (SR0), 777576 (SR2), 772300 to 772356 and 777600 to 777656 (pages). */
#ifndef RUN_CASES_H
#define RUN_CASES_H

#include <stdint.h>

/* R0 to R5; the stack pointers of kernel mode and of all other modes; PC; the status word with all its bits, T too. */
enum cases_register { CASES_R0, CASES_KSP = 6, CASES_USP, CASES_PC, CASES_PS, CASES_REGISTERS };

/* What the processor does next. */
enum cases_run { CASES_READY, CASES_WAITING, CASES_HALTED };

/* A new machine with so many thousands (1,024) of words of memory, all 0, after INIT. */
void cases_new(unsigned kwords);

void cases_set(enum cases_register which, uint16_t word);
uint16_t cases_get(enum cases_register which);

/* Writes and reads a word, as a program does that refers to the bus. */
void cases_put(uint32_t address, uint16_t word);
uint16_t cases_word(uint32_t address);

/* Makes so many turns, or fewer if the machine halts: an instruction each, with the services of the traps that come of it. */
enum cases_run cases_step(unsigned turns);

#endif
