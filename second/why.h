/* Why the card refuses a message, or that it does not (document 02, #105). */
#ifndef WHY_H
#define WHY_H

#include <stdbool.h>
#include <stddef.h>
#include <stdint.h>

#include "card.h"

/* "Refusals: 1 image not sound, 2 message under 6 or over 252 octets, in that
   order" */
enum why_number { WHY_NAMED = 0, WHY_IMAGE = 1, WHY_OCTETS = 2 };

/* A rule of document 01's "First that applies". */
struct rule {
    const char *word;
    enum cause cause; /* of the mirror that the card gives by it */
    bool negative;    /* its P/N */
};

/* What is asked about, beside the state of the card. The message is the user
   octets of a data frame. */
struct question {
    const uint8_t *image;
    size_t image_length;
    const uint8_t *clock;
    const uint8_t *message;
    size_t length;
};

struct why {
    enum why_number number;
    const struct rule *rule; /* of WHY_NAMED; NULL if the message is accepted */
};

/* "Asking changes nothing": the card is only looked at. Of it the session alone
   counts: the message is judged as one that arrives with nothing waiting. */
struct why why_ask(const struct card *card, const struct question *question);

/* The rule's word, or `accepted`; NULL for 1 and 2, which name nothing. */
const char *why_word(const struct why *why);

#endif
