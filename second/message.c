#include "message.h"

#include "label.h"

static const struct request_row rows[] = {
    {TYPE_IDENTITY, 0, 6, CAUSE_REQUEST, RECORD_0},
    {TYPE_EVENTS, 0, 16, CAUSE_ACTIVATION, RECORD_OF_EVENTS},
    {TYPE_CLOCK, 0, 6, CAUSE_REQUEST, RECORD_0},
    {TYPE_TOTALS, 1, 18, CAUSE_ACTIVATION, RECORD_21},
    {TYPE_PERIODS, 1, 18, CAUSE_ACTIVATION, RECORD_11},
    {TYPE_SET_CLOCK, 1, 13, CAUSE_ACTIVATION, RECORD_0},
    {TYPE_OPEN, 1, 10, CAUSE_ACTIVATION, RECORD_0},
    {TYPE_DATES, 1, 6, CAUSE_REQUEST, RECORD_0},
    {TYPE_SET_DATES, 1, 16, CAUSE_ACTIVATION, RECORD_0},
    {TYPE_CLOSE, 0, 6, CAUSE_ACTIVATION, RECORD_0},
};

const struct request_row *message_row(uint8_t type)
{
    for (size_t i = 0; i < sizeof rows / sizeof rows[0]; i++)
        if (rows[i].type == type)
            return &rows[i];
    return NULL;
}

bool record_fits(enum record_rule rule, uint8_t record)
{
    switch (rule) {
    case RECORD_0:
        return record == 0;
    case RECORD_21:
        return record == 21;
    case RECORD_11:
        return record == 11;
    case RECORD_OF_EVENTS:
        break;
    }
    return record_holds_events(record);
}

struct point_address message_point(const uint8_t *request)
{
    struct point_address point = {
        (uint16_t)(request[POINT_AT] | request[POINT_AT + 1] << 8)};

    return point;
}

size_t first_label_at(const uint8_t *request)
{
    return request[TYPE_AT] == TYPE_EVENTS ? EVENTS_FIRST_AT : READINGS_FIRST_AT;
}

struct choice message_choice(const uint8_t *request)
{
    const uint8_t *first = request + first_label_at(request);
    struct choice choice = {message_point(request), request[RECORD_AT],
                            label_a_instant(first),
                            label_a_instant(first + LABEL_A_OCTETS)};

    return choice;
}

struct object_range message_objects(const uint8_t *request)
{
    struct object_range objects = {request[OBJECT_FIRST_AT], request[OBJECT_LAST_AT]};

    return objects;
}

static bool session_is_of(struct session session, struct point_address point)
{
    return session.open && session.point.number == point.number;
}

/* Verdicts that leave the session as it is. */
static struct verdict mirror(struct session session, enum cause cause, bool negative)
{
    struct verdict verdict = {REPLIES_MIRROR, cause, negative, session, ORDER_NONE};

    return verdict;
}

/* "Every refusal by cause is one mirror with P/N 0" */
static struct verdict refused(struct session session, enum cause cause)
{
    return mirror(session, cause, false);
}

static struct verdict answered(struct session session, enum replies replies)
{
    struct verdict verdict = {replies, CAUSE_CONFIRMED, false, session, ORDER_NONE};

    return verdict;
}

/* "right password opens the session for that point, replacing any other; a
   wrong one gives P/N 1 and closes the session." */
static struct verdict judge_open(const uint8_t *request,
                                 const struct metering_point *point)
{
    const uint8_t *octets = request + PASSWORD_AT;
    /* "Numbers on the wire are low octet first." */
    uint32_t password = octets[0] | (uint32_t)octets[1] << 8 |
                        (uint32_t)octets[2] << 16 | (uint32_t)octets[3] << 24;
    bool right = password == point->password;
    struct session session = {right, point->address};

    return mirror(session, CAUSE_CONFIRMED, !right);
}

/* "A label not valid, first after last"; document 02, #102: "8 and 18 use the new
   comparison". */
static bool span_real(const uint8_t *request)
{
    const uint8_t *first = request + first_label_at(request);
    const uint8_t *last = first + LABEL_A_OCTETS;

    return label_a_valid(first) && label_a_valid(last) &&
           label_a_instant(first) <= label_a_instant(last);
}

static bool any_chosen(const struct record_table *table, const uint8_t *request)
{
    struct choice choice = message_choice(request);
    const uint8_t *body;

    return choose(table, &choice, 0, 1, &body) == 1;
}

/* Document 02, #101: "17 now exactly when first is 0, last is over 6 or first is
   after last". */
static bool objects_real(struct object_range objects)
{
    return objects.first != 0 && objects.last <= READING_OBJECTS &&
           objects.first <= objects.last;
}

/* #101: "its place is unchanged", which is before "A label not valid, first
   after last, or no reading chosen, 18." */
static struct verdict judge_readings(const uint8_t *request, struct session session,
                                     const struct meter_image *image)
{
    if (!objects_real(message_objects(request)))
        return refused(session, CAUSE_NO_OBJECT);
    if (!span_real(request) || !any_chosen(&image->readings, request))
        return refused(session, CAUSE_NO_PERIOD);
    return answered(session, REPLIES_DATA);
}

/* "a label not valid or first after last, 18; no event chosen, 13." */
static struct verdict judge_events(const uint8_t *request, struct session session,
                                   const struct meter_image *image)
{
    if (!span_real(request))
        return refused(session, CAUSE_NO_PERIOD);
    if (!any_chosen(&image->events, request))
        return refused(session, CAUSE_NO_DATA);
    return answered(session, REPLIES_DATA);
}

/* "181, 186 with a label not valid: cause 7, P/N 1 and no order." */
static struct verdict judge_order(struct session session, enum order order, bool valid)
{
    struct verdict verdict = mirror(session, CAUSE_CONFIRMED, !valid);

    if (valid)
        verdict.order = order;
    return verdict;
}

/* The two switch dates have no order between them (DECISIONS). */
static struct verdict judge_set_dates(const uint8_t *request, struct session session,
                                      const struct meter_image *image)
{
    const uint8_t *time = request + TIME_AT;

    if (image->dates == NULL)
        return refused(session, CAUSE_NO_TYPE);
    return judge_order(session, ORDER_DATES,
                       label_a_valid(time) && label_a_valid(time + LABEL_A_OCTETS));
}

static struct verdict judge_close(void)
{
    struct session closed = {false, {0}};

    return mirror(closed, CAUSE_CONFIRMED, false);
}

/* "Then by type" */
static struct verdict judge_by_type(const uint8_t *request, enum message_type type,
                                    struct session session,
                                    const struct metering_point *point,
                                    const struct meter_image *image,
                                    const uint8_t *clock)
{
    switch (type) {
    case TYPE_IDENTITY:
        return answered(session, REPLIES_IDENTITY);
    case TYPE_EVENTS:
        return judge_events(request, session, image);
    case TYPE_CLOCK:
        return label_b_valid(clock) ? answered(session, REPLIES_CLOCK)
                                    : refused(session, CAUSE_NO_DATA);
    case TYPE_TOTALS:
    case TYPE_PERIODS:
        return judge_readings(request, session, image);
    case TYPE_SET_CLOCK:
        return judge_order(session, ORDER_CLOCK, label_b_valid(request + TIME_AT));
    case TYPE_OPEN:
        return judge_open(request, point);
    case TYPE_DATES:
        return image->dates != NULL ? answered(session, REPLIES_DATES)
                                    : refused(session, CAUSE_NO_TYPE);
    case TYPE_SET_DATES:
        return judge_set_dates(request, session, image);
    case TYPE_CLOSE:
        break;
    }
    return judge_close();
}

/* "First that applies: ..." The steps stand in the paper's order; a refusal
   by 14, 15 or 16 leaves the session as it was. */
struct verdict message_judge(const uint8_t *request, size_t length,
                             struct session session,
                             const struct meter_image *image,
                             const uint8_t *clock)
{
    const struct request_row *row = message_row(request[TYPE_AT]);
    const struct metering_point *point = image_point(image, message_point(request));
    bool opening = request[TYPE_AT] == TYPE_OPEN;

    if ((request[CAUSE_AT] & (CAUSE_T | CAUSE_PN)) != 0)
        return refused(session, CAUSE_NO_TYPE);
    if (row == NULL)
        return refused(session, CAUSE_NO_TYPE);
    if (!session.open && !opening)
        return refused(session, CAUSE_NO_TYPE);
    if (point == NULL)
        return refused(session, CAUSE_NO_POINT);
    if (!session_is_of(session, point->address) && !opening)
        return refused(session, CAUSE_NO_TYPE);
    if (request[STRUCTURE_AT] != row->n || length != row->octets ||
        (request[CAUSE_AT] & CAUSE_BITS) != row->cause)
        return refused(session, CAUSE_NO_TYPE);
    if (!record_fits(row->record, request[RECORD_AT]))
        return refused(session, CAUSE_NO_RECORD);
    return judge_by_type(request, row->type, session, point, image, clock);
}
