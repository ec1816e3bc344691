#include "image.h"

#include "label.h"

enum { LENGTH_FIELD = 2, KIND_FIELD = 1 };

/* "the length counts kind and body" */
enum {
    METER_LENGTH = 9,
    POINT_LENGTH = 7,
    DATES_LENGTH = 11,
    READING_LENGTH = 39,
    EVENT_LENGTH = 13
};

enum { METER = 1, POINT = 2, DATES = 3, READING = 4, EVENT = 5 };

enum { PERIODS_RECORD = 11, TOTALS_RECORD = 21 };

/* "only plain numbers are big-endian" */
static uint16_t number16(const uint8_t *octets)
{
    return (uint16_t)(octets[0] << 8 | octets[1]);
}

static uint32_t number32(const uint8_t *octets)
{
    return (uint32_t)number16(octets) << 16 | number16(octets + 2);
}

/* What of the image has not been read yet. */
struct rest {
    const uint8_t *octets;
    size_t length;
};

/* Takes the next record if it has this kind and this length and is whole;
   returns its body. Otherwise NULL, and nothing is taken: a record that no
   step takes stays in the way of "to the exact end". */
static const uint8_t *take(struct rest *rest, uint8_t kind, uint16_t length)
{
    const uint8_t *record = rest->octets;
    size_t whole = LENGTH_FIELD + (size_t)length;

    if (rest->length < whole || number16(record) != length ||
        record[LENGTH_FIELD] != kind)
        return NULL;
    rest->octets += whole;
    rest->length -= whole;
    return record + LENGTH_FIELD + KIND_FIELD;
}

static bool read_meter(struct meter_image *image, struct rest *rest)
{
    const uint8_t *body = take(rest, METER, METER_LENGTH);

    if (body == NULL)
        return false;
    image->link.number = number16(body);
    image->date = body[2];
    image->maker = body[3];
    image->product = number32(body + 4);
    return true;
}

/* "1 to 8, addresses 1 to 65,535 strictly rising": rising from 0, which is no
   address. A ninth point is left standing and makes the image unsound. */
static bool read_points(struct meter_image *image, struct rest *rest)
{
    uint16_t before = 0;

    image->point_count = 0;
    while (image->point_count < POINTS_MOST) {
        const uint8_t *body = take(rest, POINT, POINT_LENGTH);
        struct metering_point *point = &image->points[image->point_count];

        if (body == NULL)
            break;
        point->address.number = number16(body);
        point->password = number32(body + 2);
        if (point->address.number <= before)
            return false;
        before = point->address.number;
        image->point_count++;
    }
    return image->point_count >= 1;
}

/* "none or one: two labels a" */
static bool read_dates(struct meter_image *image, struct rest *rest)
{
    image->dates = take(rest, DATES, DATES_LENGTH);
    return image->dates == NULL ||
           (label_a_valid(image->dates) &&
            label_a_valid(image->dates + LABEL_A_OCTETS));
}

/* Where a reading or an event stands: "by point, record, label", and labels by
   their instants (document 02, #102). The two are not packed into one number:
   with a label b they need 66 bits, and an instant may be negative. */
struct position {
    uint32_t point_and_record;
    int64_t instant;
};

/* Lower than every record's, whatever its instant, for no point has the
   address 0. */
static const struct position before_all = {0, 0};

static struct position position_of(const uint8_t *body, int64_t instant)
{
    struct position position = {(uint32_t)number16(body) << 8 | body[2], instant};

    return position;
}

static bool equal(struct position a, struct position b)
{
    return a.point_and_record == b.point_and_record && a.instant == b.instant;
}

static bool lower(struct position a, struct position b)
{
    if (a.point_and_record != b.point_and_record)
        return a.point_and_record < b.point_and_record;
    return a.instant < b.instant;
}

/* "Points named in kinds 4 and 5 must be in kind 2." */
static bool names_a_point(const struct meter_image *image, const uint8_t *body)
{
    struct point_address address = {number16(body)};

    return image_point(image, address) != NULL;
}

/* "strictly rising by point, record, label". Two labels of one instant are not
   rising: "two readings so labelled are still refused" (#102). Only a label that
   is valid has an instant, so it is judged first. */
static bool read_readings(struct meter_image *image, struct rest *rest)
{
    struct record_table *table = &image->readings;
    struct position before = before_all;
    const uint8_t *body;

    table->octets = rest->octets;
    table->count = 0;
    table->stride = LENGTH_FIELD + READING_LENGTH;
    table->label_a_at = READING_LABEL_AT;
    while ((body = take(rest, READING, READING_LENGTH)) != NULL) {
        const uint8_t *label = body + READING_LABEL_AT;
        struct position here;

        if (body[2] != PERIODS_RECORD && body[2] != TOTALS_RECORD)
            return false;
        if (!names_a_point(image, body) || !label_a_valid(label))
            return false;
        here = position_of(body, label_a_instant(label));
        if (!lower(before, here))
            return false;
        before = here;
        table->count++;
    }
    return true;
}

/* "rising by point, record, label, equals allowed"; two labels of one instant
   are equals (#102). */
static bool read_events(struct meter_image *image, struct rest *rest)
{
    struct record_table *table = &image->events;
    struct position before = before_all;
    const uint8_t *body;

    table->octets = rest->octets;
    table->count = 0;
    table->stride = LENGTH_FIELD + EVENT_LENGTH;
    table->label_a_at = EVENT_LABEL_AT + LABEL_B_FRONT;
    while ((body = take(rest, EVENT, EVENT_LENGTH)) != NULL) {
        const uint8_t *label = body + EVENT_LABEL_AT;
        struct position here;

        if (!record_holds_events(body[2]))
            return false;
        if (!names_a_point(image, body) || !label_b_valid(label))
            return false;
        here = position_of(body, label_b_instant(label));
        if (!lower(before, here) && !equal(before, here))
            return false;
        before = here;
        table->count++;
    }
    return true;
}

/* "version 1, then records ... to the exact end, in this order" */
bool image_read(struct meter_image *image, const uint8_t *octets, size_t length)
{
    struct rest rest = {octets, length};

    if (length < 1 || length > IMAGE_OCTETS_MOST || octets[0] != 1)
        return false;
    rest.octets++;
    rest.length--;
    return read_meter(image, &rest) && read_points(image, &rest) &&
           read_dates(image, &rest) && read_readings(image, &rest) &&
           read_events(image, &rest) && rest.length == 0;
}

const struct metering_point *image_point(const struct meter_image *image,
                                         struct point_address address)
{
    for (size_t i = 0; i < image->point_count; i++)
        if (image->points[i].address.number == address.number)
            return &image->points[i];
    return NULL;
}

bool record_holds_events(uint8_t record)
{
    return (record >= 52 && record <= 55) || record == 128 || record == 129;
}

/* "An event is compared by its minute": the label a inside its label b is, so
   one comparison serves readings and events, both ends in. */
static bool is_chosen(const struct record_table *table,
                      const struct choice *choice, const uint8_t *body)
{
    int32_t minute = label_a_instant(body + table->label_a_at);

    return number16(body) == choice->point.number &&
           body[2] == choice->record &&
           choice->first <= minute && minute <= choice->last;
}

size_t choose(const struct record_table *table, const struct choice *choice,
              size_t given, size_t most, const uint8_t **bodies)
{
    size_t passed = 0;
    size_t found = 0;

    for (size_t i = 0; i < table->count && found < most; i++) {
        const uint8_t *record = table->octets + i * table->stride;
        const uint8_t *body = record + LENGTH_FIELD + KIND_FIELD;

        if (!is_chosen(table, choice, body))
            continue;
        if (passed < given)
            passed++;
        else
            bodies[found++] = body;
    }
    return found;
}
