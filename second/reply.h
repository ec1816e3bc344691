/* The waiting replies and how each is worked out (document 01, "Messages"). */
#ifndef REPLY_H
#define REPLY_H

#include <stddef.h>
#include <stdint.h>

#include "frame.h"
#include "image.h"
#include "label.h"
#include "message.h"

enum next_reply {
    NEXT_NONE,
    NEXT_MIRROR,       /* the only one: a refusal or a confirmation */
    NEXT_IDENTITY,     /* 71 */
    NEXT_CLOCK,        /* 72 */
    NEXT_DATES,        /* 131 */
    NEXT_DATA_MIRROR,  /* the mirror 7 in front of data */
    NEXT_DATA          /* the data, and mirror 10 when there are no more */
};

struct waiting {
    enum next_reply next;
    uint8_t request[USER_OCTETS_MOST]; /* for mirrors, choice and objects */
    size_t request_length;
    enum cause cause;                  /* of NEXT_MIRROR */
    bool negative;
    uint8_t clock[LABEL_B_OCTETS];     /* of NEXT_CLOCK */
    size_t given;                      /* readings or events, of NEXT_DATA */
};

/* What a judged request leaves waiting. */
void waiting_begin(struct waiting *waiting, const uint8_t *request, size_t length,
                   const struct verdict *verdict, const uint8_t *clock);

/* Writes the user data of the next reply, worked out from this image, and
   moves on; returns its length, 0 if nothing waits. */
size_t waiting_give(struct waiting *waiting, const struct meter_image *image,
                    uint8_t user[USER_OCTETS_MOST]);

#endif
