#include "card.h"

#include <string.h>

/* C from the centre. */
enum {
    CONTROL_DIRECTION = 0xC0, /* bit 8 reserved, bit 7 PRM */
    CONTROL_PRM = 0x40,
    CONTROL_FCB = 0x20,
    CONTROL_FCV = 0x10,
    CONTROL_FUNCTION = 0x0F
};

enum {
    FUNCTION_RESET = 0,
    FUNCTION_USER_DATA = 3,
    FUNCTION_STATUS = 9,
    FUNCTION_CLASS_2 = 11
};

/* C of replies; "ACD and DFC are 0". */
enum {
    CONTROL_ACK = 0x00,
    CONTROL_NACK = 0x01,
    CONTROL_DATA = 0x08,
    CONTROL_NOTHING = 0x09,
    CONTROL_STATUS = 0x0B
};

enum { DAMAGED_MOST = 65535 };

void card_power_on(struct card *card)
{
    memset(card, 0, sizeof *card);
    card->waiting.next = NEXT_NONE;
}

void card_octet(struct card *card, uint8_t octet)
{
    struct collector *collector = &card->collector;

    if (collector->length < sizeof collector->octets)
        collector->octets[collector->length++] = octet;
    else
        collector->overfull = true;
}

/* "data bits and parity bit together have an even number of ones" (#104) */
static bool is_even(uint8_t octet, bool parity_bit)
{
    unsigned ones = parity_bit;

    for (unsigned bits = octet; bits != 0; bits >>= 1)
        ones += bits & 1;
    return ones % 2 == 0;
}

/* A wrong parity bit marks the run; the octet joins it like any other, for it
   counts towards the length. */
void card_character(struct card *card, uint8_t octet, bool parity_bit)
{
    if (!is_even(octet, parity_bit))
        card->collector.marked = true;
    card_octet(card, octet);
}

/* "the collector becomes as fresh" */
static void empty_collector(struct collector *collector)
{
    collector->length = 0;
    collector->overfull = false;
    collector->marked = false;
}

static unsigned function_of(const struct frame *frame)
{
    return frame->control & CONTROL_FUNCTION;
}

/* "Offered: 0 reset (fixed, FCV 0), 3 user data (variable, FCV 1), 9 status
   (fixed, FCV 0), 11 class 2 (fixed, FCV 1)." */
static bool is_offered(const struct frame *frame)
{
    bool fcv = (frame->control & CONTROL_FCV) != 0;

    if ((frame->control & CONTROL_DIRECTION) != CONTROL_PRM)
        return false;
    switch (function_of(frame)) {
    case FUNCTION_RESET:
    case FUNCTION_STATUS:
        return !frame->variable && !fcv;
    case FUNCTION_USER_DATA:
        return frame->variable && fcv;
    case FUNCTION_CLASS_2:
        return !frame->variable && fcv;
    default:
        return false;
    }
}

static bool is_counted(const struct frame *frame)
{
    return function_of(frame) == FUNCTION_USER_DATA ||
           function_of(frame) == FUNCTION_CLASS_2;
}

/* Numbers 2, 10 and 3 to 7 in their order, or 0; the frame is filled for 0 and 5
   to 7. */
static enum gap_number judge_run(const struct card *card, struct frame *frame,
                                 struct link_address own)
{
    const struct collector *run = &card->collector;

    if (run->overfull)
        return GAP_TOO_LONG;
    if (run->marked)
        return GAP_WRONG_PARITY;
    switch (frame_read(frame, run->octets, run->length)) {
    case FRAME_NO_FORM:
        return GAP_NO_FORM;
    case FRAME_WRONG_SUM:
        return GAP_WRONG_SUM;
    case FRAME_SOUND:
        break;
    }
    if (frame->address.number != own.number)
        return GAP_OTHER_ADDRESS;
    if (!is_offered(frame))
        return GAP_NOT_OFFERED;
    if (is_counted(frame) && !card->was_reset)
        return GAP_NOT_RESET;
    return GAP_ANSWERED;
}

/* "The count of damaged runs grows by one for 2, 3 and 4 only, and stays at
   65,535"; 10 has "all effects of 3" (#104). */
static void count_damaged(struct card *card, enum gap_number number)
{
    bool damaged = number == GAP_TOO_LONG || number == GAP_WRONG_PARITY ||
                   number == GAP_NO_FORM || number == GAP_WRONG_SUM;

    if (damaged && card->damaged < DAMAGED_MOST)
        card->damaged++;
}

static void remember(struct card *card, const uint8_t *reply, size_t length)
{
    memcpy(card->remembered, reply, length);
    card->remembered_length = length;
}

/* "Reset: ACK; session closed, waiting replies dropped, last FCB 0, the ACK
   remembered." */
static size_t answer_reset(struct card *card, struct link_address own, uint8_t *buffer)
{
    size_t length = frame_write_fixed(buffer, CONTROL_ACK, own);

    card->was_reset = true;
    card->session.open = false;
    card->waiting.next = NEXT_NONE;
    card->last_fcb = false;
    remember(card, buffer, length);
    return length;
}

/* The order leaves with the gap that sends the ACK; its octets are the
   request's behind the header (DECISIONS). */
static void give_order(struct gap_result *result, enum order order,
                       const struct frame *frame)
{
    if (order == ORDER_NONE)
        return;
    result->order = order;
    result->order_length = frame->user_length - HEADER_OCTETS;
    memcpy(result->order_octets, frame->user + HEADER_OCTETS, result->order_length);
}

/* "Function 3 gets NACK if replies wait or there are under 6 user octets, else
   ACK and the message is carried out." */
static size_t take_message(struct card *card, const struct frame *frame,
                           const struct meter_image *image, const struct lent *lent,
                           struct gap_result *result)
{
    struct verdict verdict;

    if (card->waiting.next != NEXT_NONE || frame->user_length < HEADER_OCTETS)
        return frame_write_fixed(lent->buffer, CONTROL_NACK, image->link);
    verdict = message_judge(frame->user, frame->user_length, card->session, image,
                            lent->clock);
    card->session = verdict.session;
    waiting_begin(&card->waiting, frame->user, frame->user_length, &verdict,
                  lent->clock);
    give_order(result, verdict.order, frame);
    return frame_write_fixed(lent->buffer, CONTROL_ACK, image->link);
}

/* "Function 11 gives the next waiting reply, or 09." */
static size_t give_reply(struct card *card, const struct meter_image *image,
                         uint8_t *buffer)
{
    uint8_t user[USER_OCTETS_MOST];
    size_t length = waiting_give(&card->waiting, image, user);

    if (length == 0)
        return frame_write_fixed(buffer, CONTROL_NOTHING, image->link);
    return frame_write_variable(buffer, CONTROL_DATA, image->link, user, length);
}

/* Functions 3 and 11, "FCB equal to the last" and "FCB new". */
static size_t answer_counted(struct card *card, const struct frame *frame,
                             const struct meter_image *image,
                             const struct lent *lent, struct gap_result *result)
{
    bool fcb = (frame->control & CONTROL_FCB) != 0;
    size_t length;

    if (fcb == card->last_fcb) {
        /* "the remembered reply again, octet for octet, nothing carried out,
           whatever the frame holds" */
        memcpy(lent->buffer, card->remembered, card->remembered_length);
        return card->remembered_length;
    }
    card->last_fcb = fcb;
    if (function_of(frame) == FUNCTION_USER_DATA)
        length = take_message(card, frame, image, lent, result);
    else
        length = give_reply(card, image, lent->buffer);
    remember(card, lent->buffer, length);
    return length;
}

static size_t answer(struct card *card, const struct frame *frame,
                     const struct meter_image *image, const struct lent *lent,
                     struct gap_result *result)
{
    switch (function_of(frame)) {
    case FUNCTION_RESET:
        return answer_reset(card, image->link, lent->buffer);
    case FUNCTION_STATUS:
        /* "Status: reply 0B; changes nothing." */
        return frame_write_fixed(lent->buffer, CONTROL_STATUS, image->link);
    default:
        return answer_counted(card, frame, image, lent, result);
    }
}

/* "Order: 9, 8, 1, 2, 3, 4, 5, 6, 7", with 10 "between 2 and 3" (#104). 9 and 8
   leave the run and its mark where they are. */
struct gap_result card_gap(struct card *card, const struct lent *lent)
{
    struct gap_result result = {.number = GAP_ANSWERED, .order = ORDER_NONE};
    struct meter_image image;
    struct frame frame;

    if (lent->buffer_length < FRAME_OCTETS_MOST) {
        result.number = GAP_BUFFER;
    } else if (!image_read(&image, lent->image, lent->image_length)) {
        result.number = GAP_IMAGE;
    } else if (card->collector.length == 0) {
        result.number = GAP_EMPTY;
    } else {
        result.number = judge_run(card, &frame, image.link);
        count_damaged(card, result.number);
        if (result.number == GAP_ANSWERED)
            result.length = answer(card, &frame, &image, lent, &result);
        empty_collector(&card->collector);
    }
    return result;
}
