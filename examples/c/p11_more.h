/* Calls over those of pdp1140.h that callers make again and again: words of memory as an array, and steps up to an address. They are in
 * the library, in C that isn't proved, and make lines and runs by p11_line and p11_run, which are. */
#ifndef P11_MORE_H
#define P11_MORE_H

#include "pdp1140.h"

#ifdef __cplusplus
extern "C" {
#endif

/* The reason of p11_steps_until, besides those of p11_run: PC is one of the addresses. */
enum { P11_AT = 4 };

/* Makes turns one by one, each as p11_run(handle, 1, 0, ..) does, until PC is one of `count` addresses behind a turn, the machine has
 * halted or wants memory, or `most` turns are made, 1 to 100,000,000. `run` tells how many were made in all, the reason and PC. An
 * address of 16 bits is a virtual one, as PC is. The text of the last answer and the typed bytes are those of the last turn.
 * P11_DONE; P11_TOO_MANY: no run has so many turns; P11_NO_MACHINE. Where it isn't done, nothing is changed. */
P11_NONNULL
int32_t p11_steps_until(struct p11_handle *handle, const uint16_t *addresses, size_t count, uint32_t most,
                        struct p11_run_told *run);

/* Hands out `count` words from an address on, 0 to 0777777, which is even, as the line `examine` shows them; on the I/O page, from
 * 0760000 on, a word is read as the processor reads it, with all that this does there.
 * P11_DONE; P11_NO_WORDS: a word's line was refused (p11_answer has the refusal, `done` how many words there are in front of it);
 * P11_NO_MACHINE; P11_NO_MEMORY. */
enum { P11_NO_WORDS = 9 };
P11_NONNULL
int32_t p11_words(struct p11_handle *handle, uint32_t address, uint16_t *words, size_t count, size_t *done);

/* Puts `count` words into memory from an address on, as the line `deposit` does; what it answers is as for p11_words. */
P11_NONNULL
int32_t p11_put_words(struct p11_handle *handle, uint32_t address, const uint16_t *words, size_t count, size_t *done);

#ifdef __cplusplus
}
#endif
#endif
