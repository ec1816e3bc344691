/* The look-up face (README, "The look-up face"): books of names checked, and
   code pairs looked up in them. */
#include <stdlib.h>

#include "face.h"
#include "names.h"

enum { LOOKUP_BOOK_MOST = 1500000 };

/* The octets of a book and how many there are, none at the start. */
struct shelf {
    uint8_t octets[LOOKUP_BOOK_MOST];
    size_t length;
};

struct looking {
    struct shelf chosen;
    struct shelf italian;
};

static struct book book_on(const struct shelf *shelf)
{
    struct book book = {shelf->octets, shelf->length};

    return book;
}

/* "prints its check": `NUMBER ENTRY` */
static enum call_read call_book(FILE *in, FILE *out, struct shelf *shelf)
{
    enum call_read read = read_counted(in, shelf->octets, sizeof shelf->octets,
                                       &shelf->length);
    struct book_fault fault;

    if (read != CALL_DONE)
        return read;
    fault = book_check(book_on(shelf));
    fprintf(out, "%d %zu\n", (int)fault.refusal, fault.entry);
    return CALL_DONE;
}

/* `NUMBER BOOK ENTRY NAME` */
static void write_look_up(FILE *out, const struct look_up *found)
{
    fprintf(out, "%d %d %zu ", (int)found->refusal, (int)found->book, found->entry);
    write_hex(out, found->name, found->name_length, false);
    putc('\n', out);
}

static void answer(FILE *out, const struct looking *looking, struct code_pair codes)
{
    struct look_up found = look_up(book_on(&looking->chosen),
                                   book_on(&looking->italian), codes);

    write_look_up(out, &found);
}

static enum call_read call_codes(FILE *in, FILE *out, const struct looking *looking)
{
    uint8_t octets[2];
    struct code_pair codes;

    if (!read_octets(in, octets, sizeof octets))
        return CALL_CUT;
    codes.spa = octets[0];
    codes.spq = octets[1];
    answer(out, looking, codes);
    return CALL_DONE;
}

static enum call_read call_event(FILE *in, FILE *out, const struct looking *looking)
{
    uint8_t octets[2];

    if (!read_octets(in, octets, sizeof octets))
        return CALL_CUT;
    answer(out, looking, event_codes(octets));
    return CALL_DONE;
}

static enum call_read next_call(FILE *in, FILE *out, struct looking *looking)
{
    switch (getc(in)) {
    case 'C':
        return call_book(in, out, &looking->chosen);
    case 'I':
        return call_book(in, out, &looking->italian);
    case 'L':
        return call_codes(in, out, looking);
    case 'E':
        return call_event(in, out, looking);
    case EOF:
        return CALL_NONE;
    default:
        return CALL_WRONG;
    }
}

int main(void)
{
    static struct looking looking; /* too large for the stack */
    enum call_read read = CALL_DONE;
    bool written = true;

    while (read == CALL_DONE && written) {
        read = next_call(stdin, stdout, &looking);
        written = close_call(stdout, read);
    }
    return written ? EXIT_SUCCESS : EXIT_FAILURE;
}
