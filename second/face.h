/* What the faces share: taking input apart and writing octets out. */
#ifndef FACE_H
#define FACE_H

#include <stdbool.h>
#include <stddef.h>
#include <stdint.h>
#include <stdio.h>

#include "message.h"

/* Reads exactly `length` octets; false if the input ends before. */
bool read_octets(FILE *in, uint8_t *octets, size_t length);

/* Reads a big-endian number of `octets` octets (at most 3 are used here). */
bool read_number(FILE *in, size_t octets, size_t *number);

/* What became of a call of the driving or the look-up face. */
enum call_read { CALL_DONE, CALL_CUT, CALL_WRONG, CALL_NONE };

/* Reads a 3-octet length, at most `most`, and so many octets. A cut call is the
   last one, so it is no matter that part of the octets has been written over. */
enum call_read read_counted(FILE *in, uint8_t *octets, size_t most, size_t *length);

/* Says `cut` or `call` behind a call that was the last, and lets out what was
   written; false if it could not be. */
bool close_call(FILE *out, enum call_read read);

/* `-`, `clock` or `dates`. */
const char *order_name(enum order order);

/* Upper-case hex pairs, apart or not, or `-` for no octets. */
void write_hex(FILE *out, const uint8_t *octets, size_t length, bool apart);

#endif
