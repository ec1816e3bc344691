#include "label.h"

/* The places of the octets in a label a; the minute comes first on the wire. */
enum { MINUTE, HOUR, DAY, MONTH, YEAR };

static unsigned minute_of(const uint8_t *label) { return label[MINUTE] & 0x3Fu; }
static unsigned hour_of(const uint8_t *label) { return label[HOUR] & 0x1Fu; }
static unsigned day_of(const uint8_t *label) { return label[DAY] & 0x1Fu; }
static unsigned month_of(const uint8_t *label) { return label[MONTH] & 0x0Fu; }
static unsigned year_of(const uint8_t *label) { return label[YEAR] & 0x7Fu; }
static bool is_summer(const uint8_t *label) { return (label[HOUR] & 0x80u) != 0; }

/* "00 to 99 for 2000 to 2099": 2000 is a leap year by the rule of 400, and the
   span holds no other full century, so every fourth year is one. */
static bool is_leap(unsigned year) { return year % 4 == 0; }

static unsigned days_in(unsigned month, unsigned year)
{
    static const uint8_t days[12] = {31, 28, 31, 30, 31, 30,
                                     31, 31, 30, 31, 30, 31};

    if (month == 2 && is_leap(year))
        return 29;
    return days[month - 1];
}

/* TIS and IV in the minute, bits 6 and 7 of the hour, ETI and PTI in the month,
   bit 8 of the year. SU (bit 8 of the hour) and the weekday are not judged. */
static bool unwanted_bits_clear(const uint8_t *label)
{
    return (label[MINUTE] & 0xC0u) == 0 && (label[HOUR] & 0x60u) == 0 &&
           (label[MONTH] & 0xF0u) == 0 && (label[YEAR] & 0x80u) == 0;
}

bool label_a_valid(const uint8_t *label)
{
    if (!unwanted_bits_clear(label))
        return false;
    if (minute_of(label) > 59 || hour_of(label) > 23 || year_of(label) > 99)
        return false;
    if (month_of(label) < 1 || month_of(label) > 12)
        return false;
    return day_of(label) >= 1 &&
           day_of(label) <= days_in(month_of(label), year_of(label));
}

/* The two octets in front of a label b, low octet first: milliseconds in the
   low ten bits, seconds above (E7 EF is 59 s 999 ms). */
static unsigned front_of(const uint8_t *label)
{
    return label[0] | (unsigned)label[1] << 8;
}

static unsigned milliseconds_of(const uint8_t *label) { return front_of(label) & 0x3FFu; }
static unsigned seconds_of(const uint8_t *label) { return front_of(label) >> 10; }

bool label_b_valid(const uint8_t *label)
{
    return milliseconds_of(label) <= 999 && seconds_of(label) <= 59 &&
           label_a_valid(label + LABEL_B_FRONT);
}

/* Whole days from 1 January 2000 to the label's day, on the clock's face. */
static unsigned days_before(const uint8_t *label)
{
    static const uint16_t months[12] = {0, 31, 59, 90, 120, 151,
                                        181, 212, 243, 273, 304, 334};
    unsigned year = year_of(label);
    unsigned month = month_of(label);
    /* 2000 is the first leap year of the span, so one day from 2001 on, two from
       2005 on; the year's own counts once its February is over. */
    unsigned leap_days = (year + 3) / 4 + (month > 2 && is_leap(year));

    return 365 * year + leap_days + months[month - 1] + day_of(label) - 1;
}

/* "with SU 1 the label counts one hour earlier" */
int32_t label_a_instant(const uint8_t *label)
{
    unsigned face = (days_before(label) * 24 + hour_of(label)) * 60 + minute_of(label);

    return (int32_t)face - (is_summer(label) ? 60 : 0);
}

/* Second and millisecond are behind the minute, whatever SU is. */
int64_t label_b_instant(const uint8_t *label)
{
    int64_t minute = label_a_instant(label + LABEL_B_FRONT);

    return minute * 60000 + seconds_of(label) * 1000 + milliseconds_of(label);
}
