#include "frame.h"

#include <string.h>

enum {
    FIXED_START = 0x10,
    VARIABLE_START = 0x68,
    FINAL = 0x16,
    FIXED_OCTETS = 6,
    FIXED_FRONT = 1,     /* octets before C */
    VARIABLE_FRONT = 4,
    LINK_OCTETS = 3,     /* C A A */
    LENGTH_LEAST = 3,
    UNCOUNTED_OCTETS = 6 /* 68 L L 68 before, S 16 behind */
};

/* "S is the sum of C, A and user data modulo 256." */
static uint8_t sum(const uint8_t *octets, size_t length)
{
    uint8_t total = 0;

    for (size_t i = 0; i < length; i++)
        total = (uint8_t)(total + octets[i]);
    return total;
}

/* "10 C A A S 16 (hex), exactly 6 octets" */
static bool fixed_form(const uint8_t *run, size_t length)
{
    return length == FIXED_OCTETS && run[0] == FIXED_START &&
           run[length - 1] == FINAL;
}

/* "68 L L 68 C A A, user data, S 16, exactly L + 6 octets, L 3 to 255" */
static bool variable_form(const uint8_t *run, size_t length)
{
    return length >= LENGTH_LEAST + UNCOUNTED_OCTETS &&
           run[0] == VARIABLE_START && run[1] == run[2] &&
           run[3] == VARIABLE_START && run[1] >= LENGTH_LEAST &&
           length == (size_t)run[1] + UNCOUNTED_OCTETS &&
           run[length - 1] == FINAL;
}

enum frame_verdict frame_read(struct frame *frame, const uint8_t *run, size_t length)
{
    const uint8_t *summed; /* C, A and user data */
    size_t summed_length;

    if (fixed_form(run, length)) {
        frame->variable = false;
        summed = run + FIXED_FRONT;
        summed_length = LINK_OCTETS;
    } else if (variable_form(run, length)) {
        frame->variable = true;
        summed = run + VARIABLE_FRONT;
        summed_length = run[1];
    } else {
        return FRAME_NO_FORM;
    }
    if (summed[summed_length] != sum(summed, summed_length))
        return FRAME_WRONG_SUM;
    frame->control = summed[0];
    /* "A is low octet first." */
    frame->address.number = (uint16_t)(summed[1] | summed[2] << 8);
    frame->user = summed + LINK_OCTETS;
    frame->user_length = summed_length - LINK_OCTETS;
    return FRAME_SOUND;
}

static void write_link(uint8_t *out, uint8_t control, struct link_address address)
{
    out[0] = control;
    out[1] = (uint8_t)(address.number & 0xFF);
    out[2] = (uint8_t)(address.number >> 8);
}

static void write_end(uint8_t *summed, size_t summed_length)
{
    summed[summed_length] = sum(summed, summed_length);
    summed[summed_length + 1] = FINAL;
}

size_t frame_write_fixed(uint8_t *out, uint8_t control, struct link_address address)
{
    out[0] = FIXED_START;
    write_link(out + FIXED_FRONT, control, address);
    write_end(out + FIXED_FRONT, LINK_OCTETS);
    return FIXED_OCTETS;
}

size_t frame_write_variable(uint8_t *out, uint8_t control, struct link_address address,
                            const uint8_t *user, size_t user_length)
{
    size_t counted = LINK_OCTETS + user_length;

    out[0] = VARIABLE_START;
    out[1] = (uint8_t)counted;
    out[2] = (uint8_t)counted;
    out[3] = VARIABLE_START;
    write_link(out + VARIABLE_FRONT, control, address);
    memcpy(out + VARIABLE_FRONT + LINK_OCTETS, user, user_length);
    write_end(out + VARIABLE_FRONT, counted);
    return counted + UNCOUNTED_OCTETS;
}
