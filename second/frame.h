/* Frames (document 01, "Frames"; FT 1.2). */
#ifndef FRAME_H
#define FRAME_H

#include <stdbool.h>
#include <stddef.h>
#include <stdint.h>

#include "image.h"

enum {
    USER_OCTETS_MOST = 252,
    FRAME_OCTETS_MOST = 261 /* L 255 and the six octets it does not count */
};

/* A run that has been found to be a sound frame. */
struct frame {
    bool variable;
    uint8_t control;
    struct link_address address;
    const uint8_t *user; /* inside the run */
    size_t user_length;
};

enum frame_verdict { FRAME_SOUND, FRAME_NO_FORM, FRAME_WRONG_SUM };

enum frame_verdict frame_read(struct frame *frame, const uint8_t *run, size_t length);

/* Both write a whole frame and return its length. The variable one's user data
   must not lie in `out`. */
size_t frame_write_fixed(uint8_t *out, uint8_t control, struct link_address address);
size_t frame_write_variable(uint8_t *out, uint8_t control, struct link_address address,
                            const uint8_t *user, size_t user_length);

#endif
