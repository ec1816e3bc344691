/* The card (document 01, "The card's job" and "What a gap answers"; document 02,
   #104). */
#ifndef CARD_H
#define CARD_H

#include <stdbool.h>
#include <stddef.h>
#include <stdint.h>

#include "frame.h"
#include "label.h"
#include "message.h"
#include "reply.h"

/* The octets since the last gap. */
struct collector {
    uint8_t octets[FRAME_OCTETS_MOST];
    size_t length;
    bool overfull; /* "262 or more mark it overfull" */
    bool marked;   /* a parity bit was wrong, of a kept octet or of one too many */
};

/* "The card holds a collector of octets, the link, one session and the waiting
   replies." */
struct card {
    struct collector collector;
    bool was_reset;
    bool last_fcb;
    uint8_t remembered[FRAME_OCTETS_MOST];
    size_t remembered_length;
    struct session session;
    struct waiting waiting;
    uint16_t damaged; /* "The count of damaged runs" */
};

/* The numbers of document 01's table "What a gap answers", and 10 of #104. */
enum gap_number {
    GAP_ANSWERED = 0,
    GAP_EMPTY = 1,
    GAP_TOO_LONG = 2,
    GAP_NO_FORM = 3,
    GAP_WRONG_SUM = 4,
    GAP_OTHER_ADDRESS = 5,
    GAP_NOT_OFFERED = 6,
    GAP_NOT_RESET = 7,
    GAP_IMAGE = 8,
    GAP_BUFFER = 9,
    GAP_WRONG_PARITY = 10
};

enum { ORDER_OCTETS_MOST = 2 * LABEL_A_OCTETS };

struct gap_result {
    enum gap_number number;
    size_t length; /* of the reply */
    enum order order;
    uint8_t order_octets[ORDER_OCTETS_MOST];
    size_t order_length;
};

/* "A gap is lent the meter image, the clock (7 octets, type b) and a reply
   buffer." */
struct lent {
    const uint8_t *image;
    size_t image_length;
    const uint8_t *clock;
    uint8_t *buffer;
    size_t buffer_length;
};

/* "At power-on: link not reset, no session, nothing waiting, collector empty,
   count 0." */
void card_power_on(struct card *card);

/* A character is an octet and, in the eleven-bit profile, its parity bit. Whoever
   gives them keeps to one profile from power-on on; all else that the card does is
   the same in both. The first call is for the ten-bit profile, and in the
   eleven-bit one for an octet whose parity bit is right. */
void card_octet(struct card *card, uint8_t octet);
void card_character(struct card *card, uint8_t octet, bool parity_bit);

struct gap_result card_gap(struct card *card, const struct lent *lent);

#endif
