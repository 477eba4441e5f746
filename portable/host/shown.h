/* What of the bytes that a machine types gets to a person's terminal. */
#ifndef SHOWN_H
#define SHOWN_H

#include <stddef.h>
#include <stdint.h>

/* Puts behind each other what passes of these bytes, in a row of at least 4 * (count + 32) bytes: how many they are. Printing bytes
 * pass, and NUL, BEL, BS, HT, LF, VT, FF, CR, SO, SI, DEL, and the sequences by which a VT52 or VT100 writes on its screen; any other
 * byte is shown as <, two hexadecimal digits, >. A sequence may be cut between two calls. */
size_t pass(const uint8_t *bytes, size_t count, uint8_t *row);

#endif
