/* What the firmware's checks share: buffers of exact length, and the count of checks. */
#ifndef CHECKS_H
#define CHECKS_H

#include <stddef.h>
#include <stdint.h>

/* A buffer of exactly this length that holds a pattern; ends the program if there is
 * no memory. Freed by the caller. */
uint8_t *new_buffer(size_t length);

/* A copy of the bytes in a buffer of exactly their length. Freed by the caller. */
uint8_t *copy_of(const uint8_t *bytes, size_t length);

/* Whether the buffer holds the first bytes given and, behind them, its pattern. */
int holds(const uint8_t *buffer, size_t length, const uint8_t *front, size_t front_length);

/* Counts one check and prints its name and the case's when it failed. */
void check(int passed, const char *case_name, const char *what);

/* Prints the tally; the program's exit status, which is no success without a check. */
int finish(void);

#endif
