#include "names.h"

/* "entries of SPA, SPQ, name length in one octet and the name" */
enum { SPA, SPQ, NAME_LENGTH, ENTRY_HEAD };

static struct book behind(struct book book, size_t octets)
{
    struct book rest = {book.octets + octets, book.length - octets};

    return rest;
}

/* "book 1 empty or not version 1" */
struct book_pass book_begin(struct book book)
{
    struct book_pass pass = {.rest = book};

    if (book.length == 0 || book.octets[0] != BOOK_VERSION)
        pass.fault.refusal = BOOK_NOT_VERSION_1;
    else
        pass.rest = behind(book, 1);
    return pass;
}

/* The head or the name is not all there. A length that is not allowed counts
   here, too, for cut comes before it. */
static bool is_cut(struct book rest)
{
    return rest.length < ENTRY_HEAD ||
           rest.length - ENTRY_HEAD < rest.octets[NAME_LENGTH];
}

/* The entry that stands next, which is not cut. */
static struct book_entry next_entry(const struct book_pass *pass)
{
    const uint8_t *octets = pass->rest.octets;
    struct book_entry entry = {{octets[SPA], octets[SPQ]},
                               octets + ENTRY_HEAD,
                               octets[NAME_LENGTH],
                               pass->last.number + 1};

    return entry;
}

static bool name_fits(const struct book_entry *entry)
{
    return entry->name_length >= 1 && entry->name_length <= NAME_OCTETS_MOST;
}

static bool same(struct code_pair a, struct code_pair b)
{
    return a.spa == b.spa && a.spq == b.spq;
}

static bool lower(struct code_pair a, struct code_pair b)
{
    return a.spa < b.spa || (a.spa == b.spa && a.spq < b.spq);
}

/* "rising by SPA and SPQ without equals" */
static bool in_order(const struct book_entry *before, const struct book_entry *entry)
{
    return before->number == 0 || lower(before->codes, entry->codes);
}

/* The fault of the entry that stands next, "by number". */
static enum book_refusal judge_next(const struct book_pass *pass)
{
    struct book_entry entry;

    if (is_cut(pass->rest))
        return BOOK_CUT;
    entry = next_entry(pass);
    if (!name_fits(&entry))
        return BOOK_NAME_LENGTH;
    if (!in_order(&pass->last, &entry))
        return BOOK_ORDER;
    return BOOK_SOUND;
}

/* "by place in the book": nothing is read behind the first fault. */
bool book_step(struct book_pass *pass)
{
    enum book_refusal refusal;

    if (pass->fault.refusal != BOOK_SOUND || pass->rest.length == 0)
        return false;
    refusal = judge_next(pass);
    if (refusal != BOOK_SOUND) {
        pass->fault.refusal = refusal;
        pass->fault.entry = pass->last.number + 1;
        return false;
    }
    pass->last = next_entry(pass);
    pass->rest = behind(pass->rest, ENTRY_HEAD + pass->last.name_length);
    return true;
}

struct book_fault book_check(struct book book)
{
    struct book_pass pass = book_begin(book);

    while (book_step(&pass))
        ;
    return pass.fault;
}

/* "Of an event's second octet the SPQ is the upper seven bits, SPI the lowest
   bit." */
struct code_pair event_codes(const uint8_t *octets)
{
    struct code_pair codes = {octets[0], octets[1] >> 1};

    return codes;
}

/* Checks the whole book and looks for the code pair on the way. Of a sound book
   one entry at most has it. */
static struct look_up look_in(struct book book, enum book_place place,
                              struct code_pair codes)
{
    struct book_pass pass = book_begin(book);
    struct look_up found = {.book = BOOK_NEITHER};

    while (book_step(&pass))
        if (same(pass.last.codes, codes))
            found = (struct look_up){BOOK_SOUND, place, pass.last.number,
                                     pass.last.name, pass.last.name_length};
    if (pass.fault.refusal != BOOK_SOUND)
        found = (struct look_up){pass.fault.refusal, place, pass.fault.entry, NULL, 0};
    return found;
}

/* "a lookup checks the chosen book, then the Italian one": also where the chosen
   one has the name. */
struct look_up look_up(struct book chosen, struct book italian, struct code_pair codes)
{
    struct look_up in_chosen = look_in(chosen, BOOK_CHOSEN, codes);
    struct look_up in_italian;

    if (in_chosen.refusal != BOOK_SOUND)
        return in_chosen;
    in_italian = look_in(italian, BOOK_ITALIAN, codes);
    if (in_italian.refusal != BOOK_SOUND || in_chosen.book == BOOK_NEITHER)
        return in_italian;
    return in_chosen;
}
