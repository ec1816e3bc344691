/* The driving face (README, "The driving face"): shows what the printing
   face cannot. */
#include <inttypes.h>
#include <stdlib.h>
#include <string.h>

#include "card.h"
#include "face.h"
#include "why.h"

enum {
    DRIVE_IMAGE_MOST = 65600, /* more than an image may have, to be refused */
    DRIVE_BUFFER = 300,
    DRIVE_OCTETS_MOST = 65535,
    CHARACTER_OCTETS = 2 /* of a character in `P`: octet, parity bit */
};

struct driving {
    struct card card;
    bool eleven_bit; /* the card's profile, ten-bit if not */
    uint8_t image[DRIVE_IMAGE_MOST];
    size_t image_length;
    uint8_t clock[LABEL_B_OCTETS];
    uint8_t buffer[DRIVE_BUFFER]; /* kept between gaps */
    size_t buffer_lent;
    uint8_t given[CHARACTER_OCTETS * DRIVE_OCTETS_MOST]; /* of an `O`, a `P` or a `W` */
};

static void driving_begin(struct driving *driving)
{
    card_power_on(&driving->card);
    driving->eleven_bit = false;
    driving->image_length = 0;
    memset(driving->clock, 0, sizeof driving->clock);
    memset(driving->buffer, 0xAA, sizeof driving->buffer);
    driving->buffer_lent = FRAME_OCTETS_MOST;
}

/* "`I`, 3-octet length, image octets (at most 65,600)" */
static enum call_read call_image(FILE *in, struct driving *driving)
{
    return read_counted(in, driving->image, sizeof driving->image,
                        &driving->image_length);
}

static enum call_read call_clock(FILE *in, struct driving *driving)
{
    return read_octets(in, driving->clock, sizeof driving->clock) ? CALL_DONE : CALL_CUT;
}

/* "`B`, 2-octet length up to 300" */
static enum call_read call_buffer(FILE *in, struct driving *driving)
{
    size_t length;

    if (!read_number(in, 2, &length))
        return CALL_CUT;
    if (length > sizeof driving->buffer)
        return CALL_WRONG;
    driving->buffer_lent = length;
    return CALL_DONE;
}

/* "`E`: a card at power-on of the eleven-bit profile from here on"; what is lent
   is not the card's and stays */
static enum call_read call_eleven_bit(struct driving *driving)
{
    card_power_on(&driving->card);
    driving->eleven_bit = true;
    return CALL_DONE;
}

/* "`O`, 2-octet length, octets: given to the card one by one", in either profile:
   with eleven bits each has its right parity bit */
static enum call_read call_octets(FILE *in, struct driving *driving)
{
    size_t length;

    if (!read_number(in, 2, &length) || !read_octets(in, driving->given, length))
        return CALL_CUT;
    for (size_t i = 0; i < length; i++)
        card_octet(&driving->card, driving->given[i]);
    return CALL_DONE;
}

static bool are_parity_bits(const uint8_t *characters, size_t octets)
{
    for (size_t i = 1; i < octets; i += CHARACTER_OCTETS)
        if (characters[i] > 1)
            return false;
    return true;
}

/* "`P`, 2-octet number of characters, then for each its octet and its parity bit
   (00 or 01)". On a ten-bit card nothing behind the letter is read. A cut call is
   `cut` whatever it holds; the parity bits are looked at when it is whole. */
static enum call_read call_characters(FILE *in, struct driving *driving)
{
    const uint8_t *given = driving->given;
    size_t characters, octets;

    if (!driving->eleven_bit)
        return CALL_WRONG;
    if (!read_number(in, 2, &characters))
        return CALL_CUT;
    octets = CHARACTER_OCTETS * characters;
    if (!read_octets(in, driving->given, octets))
        return CALL_CUT;
    if (!are_parity_bits(given, octets))
        return CALL_WRONG;
    for (size_t i = 0; i < octets; i += CHARACTER_OCTETS)
        card_character(&driving->card, given[i], given[i + 1] == 1);
    return CALL_DONE;
}

/* "number, length, order, the order's octets in hex or `-`, the count of
   damaged runs, all 300 octets of the buffer in hex" */
static void write_line(FILE *out, const struct gap_result *result,
                       const struct driving *driving)
{
    fprintf(out, "%d %zu %s ", (int)result->number, result->length,
            order_name(result->order));
    write_hex(out, result->order_octets, result->order_length, false);
    fprintf(out, " %" PRIu16 " ", driving->card.damaged);
    write_hex(out, driving->buffer, sizeof driving->buffer, false);
    putc('\n', out);
}

static enum call_read call_gap(FILE *out, struct driving *driving)
{
    struct lent lent = {driving->image, driving->image_length, driving->clock,
                        driving->buffer, driving->buffer_lent};
    struct gap_result result = card_gap(&driving->card, &lent);

    write_line(out, &result, driving);
    return CALL_DONE;
}

/* "`why`, number, word, cause, P/N; `-` for what there is not" */
static void write_why(FILE *out, const struct why *why)
{
    const char *word = why_word(why);

    fprintf(out, "why %d %s ", (int)why->number, word == NULL ? "-" : word);
    if (why->rule == NULL)
        fputs("- -\n", out);
    else
        fprintf(out, "%d %d\n", (int)why->rule->cause, (int)why->rule->negative);
}

/* "`W`, 2-octet length, octets: of a message". It is asked of the card as it is,
   with what is lent now; the card and the buffer stay as they are. */
static enum call_read call_why(FILE *in, FILE *out, struct driving *driving)
{
    struct question question = {driving->image, driving->image_length,
                                driving->clock, driving->given, 0};
    struct why why;

    if (!read_number(in, 2, &question.length) ||
        !read_octets(in, driving->given, question.length))
        return CALL_CUT;
    why = why_ask(&driving->card, &question);
    write_why(out, &why);
    return CALL_DONE;
}

static enum call_read next_call(FILE *in, FILE *out, struct driving *driving)
{
    switch (getc(in)) {
    case 'I':
        return call_image(in, driving);
    case 'C':
        return call_clock(in, driving);
    case 'B':
        return call_buffer(in, driving);
    case 'O':
        return call_octets(in, driving);
    case 'E':
        return call_eleven_bit(driving);
    case 'P':
        return call_characters(in, driving);
    case 'G':
        return call_gap(out, driving);
    case 'W':
        return call_why(in, out, driving);
    case EOF:
        return CALL_NONE;
    default:
        return CALL_WRONG;
    }
}

int main(void)
{
    static struct driving driving; /* too large for the stack */
    enum call_read read = CALL_DONE;
    bool written = true;

    driving_begin(&driving);
    while (read == CALL_DONE && written) {
        read = next_call(stdin, stdout, &driving);
        written = close_call(stdout, read);
    }
    return written ? EXIT_SUCCESS : EXIT_FAILURE;
}
