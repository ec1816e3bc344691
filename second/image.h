/* The meter image (document 01, "The meter image"). */
#ifndef IMAGE_H
#define IMAGE_H

#include <stdbool.h>
#include <stddef.h>
#include <stdint.h>

/* "A link address is never used where a metering point address is meant":
   two types, so that the compiler keeps them apart. */
struct link_address { uint16_t number; };
struct point_address { uint16_t number; };

enum {
    IMAGE_OCTETS_MOST = 65535,
    POINTS_MOST = 8,
    READING_OBJECTS = 6
};

/* One point of kind 2. */
struct metering_point {
    struct point_address address;
    uint32_t password;
};

/* The records of kind 4 or of kind 5. All records of a kind have one length
   and stand side by side, so they form a table inside the lent octets. */
struct record_table {
    const uint8_t *octets; /* the first record's length field */
    size_t count;
    size_t stride;         /* octets from one record to the next */
    size_t label_a_at;     /* where the minute and all above it stand in a body */
};

/* What a sound image says. It points into the lent octets and lives no longer
   than the gap they are lent for. */
struct meter_image {
    struct link_address link;
    uint8_t date;
    uint8_t maker;
    uint32_t product;
    struct metering_point points[POINTS_MOST];
    size_t point_count;
    const uint8_t *dates;  /* the two labels a of kind 3, or NULL */
    struct record_table readings;
    struct record_table events;
};

/* Judges the octets; true and *image filled when they are a sound image. */
bool image_read(struct meter_image *image, const uint8_t *octets, size_t length);

/* The point of that address, or NULL. */
const struct metering_point *image_point(const struct meter_image *image,
                                         struct point_address address);

/* "one of 102's list" */
bool record_holds_events(uint8_t record);

/* "Chosen are records of that point and record address with
   first <= label <= last, in image order." Document 02, #102, of comparing in
   standard time: "Selection uses it too." */
struct choice {
    struct point_address point;
    uint8_t record;
    int32_t first; /* instants of labels a */
    int32_t last;
};

/* Passes over the first `given` chosen records of the table and puts the
   bodies of up to `most` that follow into `bodies`; returns how many. */
size_t choose(const struct record_table *table, const struct choice *choice,
              size_t given, size_t most, const uint8_t **bodies);

/* Parts of the bodies. */
enum {
    READING_LABEL_AT = 3,   /* behind point and record */
    READING_VALUES_AT = 8,
    VALUE_OCTETS = 4,       /* and one octet of quality behind each value */
    EVENT_SPA_AT = 3,       /* SPA, then the SPQ/SPI octet, then the label b */
    EVENT_LABEL_AT = 5,
    EVENT_WIRE_OCTETS = 9   /* the three together, the same on the wire */
};

#endif
