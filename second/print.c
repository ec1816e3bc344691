/* The printing face (document 01, "The printing program"): the card's answers to
   the runs of one input, one line each. */
#include <inttypes.h>
#include <stdlib.h>

#include "card.h"
#include "face.h"
#include "image.h"

enum { RUN_OCTETS_MOST = 65535 };

/* One image and one run, and the card they are for. */
struct printing {
    uint8_t image[IMAGE_OCTETS_MOST];
    size_t image_length;
    uint8_t clock[LABEL_B_OCTETS];
    uint8_t run[RUN_OCTETS_MOST];
    size_t run_length;
    uint8_t buffer[FRAME_OCTETS_MOST];
    struct card card;
};

/* Reads up to the clock's end; returns the only line to print, or NULL when
   runs may follow. The order: no octet at all, then the version, then a cut
   before the clock's end, then the image. */
static const char *read_opening(FILE *in, struct printing *printing)
{
    struct meter_image image;
    size_t version;

    if (!read_number(in, 1, &version))
        return "cut";
    if (version != 1)
        return "version";
    if (!read_number(in, 2, &printing->image_length) ||
        !read_octets(in, printing->image, printing->image_length) ||
        !read_octets(in, printing->clock, LABEL_B_OCTETS))
        return "cut";
    if (!image_read(&image, printing->image, printing->image_length))
        return "image";
    return NULL;
}

enum run_read { RUN_WHOLE, RUN_CUT, RUN_NONE };

static enum run_read read_run(FILE *in, struct printing *printing)
{
    size_t high, low;

    if (!read_number(in, 1, &high))
        return RUN_NONE;
    if (!read_number(in, 1, &low))
        return RUN_CUT;
    printing->run_length = high << 8 | low;
    return read_octets(in, printing->run, printing->run_length) ? RUN_WHOLE : RUN_CUT;
}

static struct gap_result give_run(struct printing *printing)
{
    struct lent lent = {printing->image, printing->image_length, printing->clock,
                        printing->buffer, sizeof printing->buffer};

    for (size_t i = 0; i < printing->run_length; i++)
        card_octet(&printing->card, printing->run[i]);
    return card_gap(&printing->card, &lent);
}

/* "run number from 1, result number, order, reply in upper-case hex pairs" */
static void write_line(FILE *out, uint64_t run, const struct gap_result *result,
                       const uint8_t *buffer)
{
    fprintf(out, "%" PRIu64 " %d %s ", run, (int)result->number,
            order_name(result->order));
    write_hex(out, buffer, result->length, true);
    putc('\n', out);
}

/* Each line goes out as it is written; false if it could not. */
static bool print_runs(FILE *in, FILE *out, struct printing *printing)
{
    for (uint64_t run = 1;; run++) {
        enum run_read read = read_run(in, printing);
        struct gap_result result;

        if (read == RUN_NONE)
            return true;
        if (read == RUN_CUT) {
            fputs("cut\n", out);
            return fflush(out) == 0;
        }
        result = give_run(printing);
        write_line(out, run, &result, printing->buffer);
        if (fflush(out) != 0)
            return false;
    }
}

int main(void)
{
    static struct printing printing; /* too large for the stack */
    const char *fault = read_opening(stdin, &printing);
    bool written;

    if (fault != NULL) {
        printf("%s\n", fault);
        written = fflush(stdout) == 0;
    } else {
        card_power_on(&printing.card);
        written = print_runs(stdin, stdout, &printing);
    }
    return written ? EXIT_SUCCESS : EXIT_FAILURE;
}
