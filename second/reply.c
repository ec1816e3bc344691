#include "reply.h"

#include <string.h>

/* Types in monitor direction. */
enum {
    REPLY_EVENTS = 1,
    REPLY_TOTALS = 8,
    REPLY_PERIODS = 11,
    REPLY_IDENTITY = 71,
    REPLY_CLOCK = 72,
    REPLY_DATES = 131
};

enum { EVENTS_MOST = 27 };

static enum next_reply first_of(enum replies replies)
{
    switch (replies) {
    case REPLIES_IDENTITY:
        return NEXT_IDENTITY;
    case REPLIES_CLOCK:
        return NEXT_CLOCK;
    case REPLIES_DATES:
        return NEXT_DATES;
    case REPLIES_DATA:
        return NEXT_DATA_MIRROR;
    case REPLIES_MIRROR:
        break;
    }
    return NEXT_MIRROR;
}

void waiting_begin(struct waiting *waiting, const uint8_t *request, size_t length,
                   const struct verdict *verdict, const uint8_t *clock)
{
    waiting->next = first_of(verdict->replies);
    memcpy(waiting->request, request, length);
    waiting->request_length = length;
    waiting->cause = verdict->cause;
    waiting->negative = verdict->negative;
    /* "The clock is taken when 103 is accepted." */
    memcpy(waiting->clock, clock, LABEL_B_OCTETS);
    waiting->given = 0;
}

/* "A mirror is the request's octets with another cause and P/N; T is kept." */
static size_t give_mirror(const struct waiting *waiting, enum cause cause,
                          bool negative, uint8_t *user)
{
    unsigned kept = waiting->request[CAUSE_AT] & CAUSE_T;

    memcpy(user, waiting->request, waiting->request_length);
    user[CAUSE_AT] = (uint8_t)(kept | (negative ? CAUSE_PN : 0u) | cause);
    return waiting->request_length;
}

/* The header of a reply that is no mirror: cause 5, the request's point and
   record address (0 for 71, 72 and 131, as their requests must have). */
static void write_header(const struct waiting *waiting, uint8_t type, size_t n,
                         uint8_t *user)
{
    memcpy(user, waiting->request, HEADER_OCTETS);
    user[TYPE_AT] = type;
    user[STRUCTURE_AT] = (uint8_t)n;
    user[CAUSE_AT] = CAUSE_REQUEST;
}

/* "Type 71 (N 1): date, maker, product, 12 octets." */
static size_t give_identity(const struct waiting *waiting,
                            const struct meter_image *image, uint8_t *user)
{
    uint8_t *end = user + HEADER_OCTETS;

    write_header(waiting, REPLY_IDENTITY, 1, user);
    *end++ = image->date;
    *end++ = image->maker;
    /* The product code is a number: low octet first on the wire (DECISIONS). */
    for (unsigned shift = 0; shift < 32; shift += 8)
        *end++ = (uint8_t)(image->product >> shift & 0xFF);
    return (size_t)(end - user);
}

/* "Type 72 (N 1): clock, 13." */
static size_t give_clock(const struct waiting *waiting, uint8_t *user)
{
    write_header(waiting, REPLY_CLOCK, 1, user);
    memcpy(user + HEADER_OCTETS, waiting->clock, LABEL_B_OCTETS);
    return HEADER_OCTETS + LABEL_B_OCTETS;
}

/* "Type 131 (N 1): dates, 16"; "a waiting 131 without dates becomes mirror 14". */
static size_t give_dates(const struct waiting *waiting,
                         const struct meter_image *image, uint8_t *user)
{
    if (image->dates == NULL)
        return give_mirror(waiting, CAUSE_NO_TYPE, false, user);
    write_header(waiting, REPLY_DATES, 1, user);
    memcpy(user + HEADER_OCTETS, image->dates, 2 * LABEL_A_OCTETS);
    return HEADER_OCTETS + 2 * LABEL_A_OCTETS;
}

/* The value of one of the six objects, with its quality behind it. */
static const uint8_t *reading_value(const uint8_t *reading, uint8_t object)
{
    return reading + READING_VALUES_AT + (object - 1) * (VALUE_OCTETS + 1);
}

/* "one reading each": header, for each object its number, value and quality,
   then the label. Document 02, #101: "The reply then carries just those objects,
   N = last - first + 1, and has 11 + 6N octets." First and last are read anew
   from the kept request, with every reading. */
static size_t give_reading(const struct waiting *waiting, const uint8_t *reading,
                           uint8_t *user)
{
    uint8_t type = waiting->request[TYPE_AT] == TYPE_TOTALS ? REPLY_TOTALS
                                                            : REPLY_PERIODS;
    struct object_range objects = message_objects(waiting->request);
    size_t n = objects.last - objects.first + 1u;
    uint8_t *end = user + HEADER_OCTETS;

    write_header(waiting, type, n, user);
    for (uint8_t object = objects.first; object <= objects.last; object++) {
        const uint8_t *value = reading_value(reading, object);

        *end++ = object;
        /* Big-endian in the image, low octet first on the wire. */
        for (size_t i = VALUE_OCTETS; i > 0; i--)
            *end++ = value[i - 1];
        *end++ = value[VALUE_OCTETS];
    }
    memcpy(end, reading + READING_LABEL_AT, LABEL_A_OCTETS);
    return (size_t)(end - user) + LABEL_A_OCTETS;
}

/* "Type 1: up to 27 events ...: SPA, SPQ/SPI octet, time b", which stand in
   the image as they do on the wire. */
static size_t give_events(const struct waiting *waiting, const uint8_t *const *events,
                          size_t count, uint8_t *user)
{
    uint8_t *end = user + HEADER_OCTETS;

    write_header(waiting, REPLY_EVENTS, count, user);
    for (size_t i = 0; i < count; i++) {
        memcpy(end, events[i] + EVENT_SPA_AT, EVENT_WIRE_OCTETS);
        end += EVENT_WIRE_OCTETS;
    }
    return (size_t)(end - user);
}

/* "the state counts the readings or events already given, and when that image
   has no more chosen, mirror 10 follows". Only the count is kept between two
   gaps; the image lent now is chosen from anew. */
static size_t give_data(struct waiting *waiting, const struct meter_image *image,
                        uint8_t *user)
{
    bool of_events = waiting->request[TYPE_AT] == TYPE_EVENTS;
    struct choice choice = message_choice(waiting->request);
    const uint8_t *bodies[EVENTS_MOST];
    size_t count = choose(of_events ? &image->events : &image->readings, &choice,
                          waiting->given, of_events ? EVENTS_MOST : 1, bodies);

    waiting->given += count;
    if (count == 0) {
        waiting->next = NEXT_NONE;
        return give_mirror(waiting, CAUSE_TERMINATED, false, user);
    }
    return of_events ? give_events(waiting, bodies, count, user)
                     : give_reading(waiting, bodies[0], user);
}

size_t waiting_give(struct waiting *waiting, const struct meter_image *image,
                    uint8_t user[USER_OCTETS_MOST])
{
    enum next_reply now = waiting->next;

    waiting->next = NEXT_NONE;
    switch (now) {
    case NEXT_MIRROR:
        return give_mirror(waiting, waiting->cause, waiting->negative, user);
    case NEXT_IDENTITY:
        return give_identity(waiting, image, user);
    case NEXT_CLOCK:
        return give_clock(waiting, user);
    case NEXT_DATES:
        return give_dates(waiting, image, user);
    case NEXT_DATA_MIRROR:
        waiting->next = NEXT_DATA;
        return give_mirror(waiting, CAUSE_CONFIRMED, false, user);
    case NEXT_DATA:
        waiting->next = NEXT_DATA;
        return give_data(waiting, image, user);
    case NEXT_NONE:
        break;
    }
    return 0;
}
