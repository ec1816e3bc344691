#include "why.h"

/* A message under question with what its rules look at. */
struct asked {
    const uint8_t *message;
    size_t length;
    struct session session;
    const struct meter_image *image;
    const uint8_t *clock;
    const struct request_row *row;      /* of its type, or NULL */
    const struct metering_point *point; /* that it names, or NULL */
};

static bool is_type(const struct asked *asked, enum message_type type)
{
    return asked->message[TYPE_AT] == type;
}

/* "122, 123: ..." */
static bool asks_readings(const struct asked *asked)
{
    return is_type(asked, TYPE_TOTALS) || is_type(asked, TYPE_PERIODS);
}

/* "102: ..." */
static bool asks_events(const struct asked *asked)
{
    return is_type(asked, TYPE_EVENTS);
}

/* ---- the rules, in the paper's order -----------------------------------------

   Each is asked only where none before it applies, and rests on that: behind
   "type" there is a row, behind "point" a point, behind "shape" every octet of
   the body, and behind "a label not valid" two labels that can be compared. */

/* "T or P/N set, 14" */
static bool is_marked(const struct asked *asked)
{
    return (asked->message[CAUSE_AT] & (CAUSE_T | CAUSE_PN)) != 0;
}

/* "type not in the table, 14" */
static bool has_no_row(const struct asked *asked)
{
    return asked->row == NULL;
}

/* "no session and type not 183, 14" */
static bool has_no_session(const struct asked *asked)
{
    return !asked->session.open && !is_type(asked, TYPE_OPEN);
}

/* "point not in the image, 16" */
static bool has_no_point(const struct asked *asked)
{
    return asked->point == NULL;
}

/* "session of another point and type not 183, 14" */
static bool has_another_session(const struct asked *asked)
{
    return asked->session.open &&
           asked->session.point.number != message_point(asked->message).number &&
           !is_type(asked, TYPE_OPEN);
}

/* "structure octet, octets or cause not as listed, 14" */
static bool has_another_shape(const struct asked *asked)
{
    return asked->message[STRUCTURE_AT] != asked->row->n ||
           asked->length != asked->row->octets ||
           (asked->message[CAUSE_AT] & CAUSE_BITS) != asked->row->cause;
}

/* "record address, 15" */
static bool has_another_record(const struct asked *asked)
{
    return !record_fits(asked->row->record, asked->message[RECORD_AT]);
}

/* "122, 123: ... 17", since #101 "exactly when first is 0, last is over 6 or
   first is after last" */
static bool has_wrong_objects(const struct asked *asked)
{
    struct object_range objects;

    if (!asks_readings(asked))
        return false;
    objects = message_objects(asked->message);
    return objects.first == 0 || objects.last > READING_OBJECTS ||
           objects.first > objects.last;
}

static bool has_wrong_label(const uint8_t *first)
{
    return !label_a_valid(first) || !label_a_valid(first + LABEL_A_OCTETS);
}

/* By their instants, for "8 and 18 use the new comparison" (#102). */
static bool is_first_after_last(const struct asked *asked)
{
    struct choice choice = message_choice(asked->message);

    return choice.first > choice.last;
}

static bool chooses_none(const struct asked *asked, const struct record_table *table)
{
    struct choice choice = message_choice(asked->message);
    const uint8_t *body;

    return choose(table, &choice, 0, 1, &body) == 0;
}

/* "122, 123: ... A label not valid, ... 18" */
static bool has_wrong_reading_label(const struct asked *asked)
{
    return asks_readings(asked) &&
           has_wrong_label(asked->message + first_label_at(asked->message));
}

/* "122, 123: ... first after last, ... 18" */
static bool has_wrong_reading_range(const struct asked *asked)
{
    return asks_readings(asked) && is_first_after_last(asked);
}

/* "122, 123: ... no reading chosen, 18" */
static bool has_no_reading(const struct asked *asked)
{
    return asks_readings(asked) && chooses_none(asked, &asked->image->readings);
}

/* "102: a label not valid ..., 18" */
static bool has_wrong_event_label(const struct asked *asked)
{
    return asks_events(asked) &&
           has_wrong_label(asked->message + first_label_at(asked->message));
}

/* "102: ... first after last, 18" */
static bool has_wrong_event_range(const struct asked *asked)
{
    return asks_events(asked) && is_first_after_last(asked);
}

/* "102: ... no event chosen, 13" */
static bool has_no_event(const struct asked *asked)
{
    return asks_events(asked) && chooses_none(asked, &asked->image->events);
}

/* "103: clock not valid, 13" */
static bool has_no_clock(const struct asked *asked)
{
    return is_type(asked, TYPE_CLOCK) && !label_b_valid(asked->clock);
}

/* "185, 186 without switch dates in the image: 14" */
static bool has_no_dates(const struct asked *asked)
{
    return (is_type(asked, TYPE_DATES) || is_type(asked, TYPE_SET_DATES)) &&
           asked->image->dates == NULL;
}

/* "Then 181, 186 with a label not valid: cause 7, P/N 1"; 181 has a label b, 186
   has two labels a */
static bool has_wrong_time(const struct asked *asked)
{
    const uint8_t *time = asked->message + TIME_AT;

    return (is_type(asked, TYPE_SET_CLOCK) && !label_b_valid(time)) ||
           (is_type(asked, TYPE_SET_DATES) && has_wrong_label(time));
}

/* "183: ... a wrong one gives P/N 1"; "the full 32 bits", "low octet first" */
static bool has_wrong_password(const struct asked *asked)
{
    uint32_t password = 0;

    if (!is_type(asked, TYPE_OPEN))
        return false;
    for (size_t i = 4; i-- > 0;)
        password = password << 8 | asked->message[PASSWORD_AT + i];
    return password != asked->point->password;
}

/* "First that applies": the order of the rows is the paper's. "Then by type" it
   has 183 first, here it is last; no message is under its rule and another of
   these, so nothing shows it. */
static const struct {
    struct rule rule;
    bool (*applies)(const struct asked *asked);
} rules[] = {
    {{"marked", CAUSE_NO_TYPE, false}, is_marked},
    {{"type", CAUSE_NO_TYPE, false}, has_no_row},
    {{"session", CAUSE_NO_TYPE, false}, has_no_session},
    {{"point", CAUSE_NO_POINT, false}, has_no_point},
    {{"other", CAUSE_NO_TYPE, false}, has_another_session},
    {{"shape", CAUSE_NO_TYPE, false}, has_another_shape},
    {{"record", CAUSE_NO_RECORD, false}, has_another_record},
    {{"objects", CAUSE_NO_OBJECT, false}, has_wrong_objects},
    {{"reading-label", CAUSE_NO_PERIOD, false}, has_wrong_reading_label},
    {{"reading-range", CAUSE_NO_PERIOD, false}, has_wrong_reading_range},
    {{"no-reading", CAUSE_NO_PERIOD, false}, has_no_reading},
    {{"event-label", CAUSE_NO_PERIOD, false}, has_wrong_event_label},
    {{"event-range", CAUSE_NO_PERIOD, false}, has_wrong_event_range},
    {{"no-event", CAUSE_NO_DATA, false}, has_no_event},
    {{"clock", CAUSE_NO_DATA, false}, has_no_clock},
    {{"no-dates", CAUSE_NO_TYPE, false}, has_no_dates},
    {{"time", CAUSE_CONFIRMED, true}, has_wrong_time},
    {{"password", CAUSE_CONFIRMED, true}, has_wrong_password},
};

static const struct rule *first_rule(const struct asked *asked)
{
    for (size_t i = 0; i < sizeof rules / sizeof rules[0]; i++)
        if (rules[i].applies(asked))
            return &rules[i].rule;
    return NULL;
}

/* "in that order": an unsound image is 1 whatever the message is. The type is
   looked up only in a message that has one. */
struct why why_ask(const struct card *card, const struct question *question)
{
    struct why why = {WHY_NAMED, NULL};
    struct meter_image image;
    struct asked asked = {.message = question->message,
                          .length = question->length,
                          .session = card->session,
                          .image = &image,
                          .clock = question->clock};

    if (!image_read(&image, question->image, question->image_length)) {
        why.number = WHY_IMAGE;
    } else if (asked.length < HEADER_OCTETS || asked.length > USER_OCTETS_MOST) {
        why.number = WHY_OCTETS;
    } else {
        asked.row = message_row(asked.message[TYPE_AT]);
        asked.point = image_point(&image, message_point(asked.message));
        why.rule = first_rule(&asked);
    }
    return why;
}

const char *why_word(const struct why *why)
{
    if (why->number != WHY_NAMED)
        return NULL;
    return why->rule == NULL ? "accepted" : why->rule->word;
}
