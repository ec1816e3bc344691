/* Messages (document 01, "Messages"): what a request leads to. */
#ifndef MESSAGE_H
#define MESSAGE_H

#include <stdbool.h>
#include <stddef.h>
#include <stdint.h>

#include "image.h"

/* "Header: type, structure octet, cause, metering point low octet first,
   record address." */
enum {
    TYPE_AT = 0,
    STRUCTURE_AT = 1,
    CAUSE_AT = 2,
    POINT_AT = 3,
    RECORD_AT = 5,
    HEADER_OCTETS = 6
};

enum { CAUSE_T = 0x80, CAUSE_PN = 0x40, CAUSE_BITS = 0x3F };

enum cause {
    CAUSE_REQUEST = 5,
    CAUSE_ACTIVATION = 6,
    CAUSE_CONFIRMED = 7,
    CAUSE_TERMINATED = 10,
    CAUSE_NO_DATA = 13,
    CAUSE_NO_TYPE = 14,
    CAUSE_NO_RECORD = 15,
    CAUSE_NO_POINT = 16,
    CAUSE_NO_OBJECT = 17,
    CAUSE_NO_PERIOD = 18
};

enum message_type {
    TYPE_IDENTITY = 100,
    TYPE_EVENTS = 102,
    TYPE_CLOCK = 103,
    TYPE_TOTALS = 122,
    TYPE_PERIODS = 123,
    TYPE_SET_CLOCK = 181,
    TYPE_OPEN = 183,
    TYPE_DATES = 185,
    TYPE_SET_DATES = 186,
    TYPE_CLOSE = 187
};

enum record_rule { RECORD_0, RECORD_21, RECORD_11, RECORD_OF_EVENTS };

/* One row of document 01's table. N is the whole structure octet, for SQ is 0. */
struct request_row {
    enum message_type type;
    uint8_t n;
    uint8_t octets;
    enum cause cause;
    enum record_rule record;
};

/* The row of that type, or NULL. */
const struct request_row *message_row(uint8_t type);

bool record_fits(enum record_rule rule, uint8_t record);

/* What stands behind the header. */
enum {
    EVENTS_FIRST_AT = 6, /* 102: first label, last label */
    OBJECT_FIRST_AT = 6, /* 122, 123: first object, last object, labels */
    OBJECT_LAST_AT = 7,
    READINGS_FIRST_AT = 8,
    TIME_AT = 6,         /* 181: label b; 186: two labels a */
    PASSWORD_AT = 6      /* 183 */
};

/* Of a request of type 102, 122 or 123; the last label stands behind the first. */
size_t first_label_at(const uint8_t *request);

struct session {
    bool open;
    struct point_address point; /* of an open session */
};

enum order { ORDER_NONE, ORDER_CLOCK, ORDER_DATES };

/* The replies a request leaves waiting. */
enum replies {
    REPLIES_MIRROR,   /* one mirror, of the verdict's cause and P/N */
    REPLIES_IDENTITY, /* 71 */
    REPLIES_CLOCK,    /* 72 */
    REPLIES_DATES,    /* 131 */
    REPLIES_DATA      /* mirror 7, type 1, 8 or 11, mirror 10 */
};

/* All that carrying out a request comes to. */
struct verdict {
    enum replies replies;
    enum cause cause;       /* of the mirror; REPLIES_MIRROR only */
    bool negative;          /* its P/N */
    struct session session; /* from now on */
    enum order order;       /* its octets are the request's behind the header */
};

/* Judges a request of HEADER_OCTETS or more. */
struct verdict message_judge(const uint8_t *request, size_t length,
                             struct session session,
                             const struct meter_image *image,
                             const uint8_t *clock);

/* Of a request of type 102, 122 or 123 of its listed length with valid labels. */
struct choice message_choice(const uint8_t *request);

/* Document 02, #101: "any first and last with 1 <= first <= last <= 6". */
struct object_range {
    uint8_t first;
    uint8_t last;
};

/* Of a request of type 122 or 123 of its listed length; judged by
   message_judge, not here. */
struct object_range message_objects(const uint8_t *request);

struct point_address message_point(const uint8_t *request);

#endif
