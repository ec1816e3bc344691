/* Time labels (document 01, "Label a" and "Label b"). */
#ifndef LABEL_H
#define LABEL_H

#include <stdbool.h>
#include <stdint.h>

enum {
    LABEL_A_OCTETS = 5,
    LABEL_B_OCTETS = 7,
    /* "Label b adds in front 10 bits of milliseconds and 6 of seconds": what
       stands behind these two octets is a label a. */
    LABEL_B_FRONT = 2
};

/* "Valid: a real date and time; IV, TIS, ETI, PTI and reserved bits 0." */
bool label_a_valid(const uint8_t *label);
bool label_b_valid(const uint8_t *label);

/* Document 02, #102: "Labels a and b are compared in standard time". The instant
   of a label that is valid: minutes (label a) or milliseconds (label b) of
   standard time from 1 January 2000 00:00. It is signed: "A summer label in the
   first hour of 2000 lies before the year's start and must still compare." */
int32_t label_a_instant(const uint8_t *label);
int64_t label_b_instant(const uint8_t *label);

#endif
