/* Books of event names (document 02, #103): a book is checked, and a code pair
   is looked up in two of them. Nothing of a book is copied: what is found points
   into it. */
#ifndef NAMES_H
#define NAMES_H

#include <stdbool.h>
#include <stddef.h>
#include <stdint.h>

/* "version 1 ... the name, 1 to 40 octets" */
enum { BOOK_VERSION = 1, NAME_OCTETS_MOST = 40 };

/* A book is lent: any octets, also ones that are no sound book. */
struct book {
    const uint8_t *octets;
    size_t length;
};

/* SPQ as it stands in a book: SD1's seven bits, though an octet over 127 may
   stand there. */
struct code_pair {
    uint8_t spa;
    uint8_t spq;
};

struct book_entry {
    struct code_pair codes;
    const uint8_t *name;
    size_t name_length;
    size_t number; /* its place in the book, from 1 */
};

enum book_refusal {
    BOOK_SOUND = 0,
    BOOK_NOT_VERSION_1 = 1, /* or empty */
    BOOK_CUT = 2,
    BOOK_NAME_LENGTH = 3,
    BOOK_ORDER = 4
};

/* "names its first faulty entry by number from 1, 0 for refusal 1"; a sound book
   has 0, too. */
struct book_fault {
    enum book_refusal refusal;
    size_t entry;
};

/* One pass over a book from its front, entry by entry. */
struct book_pass {
    struct book rest; /* from the next entry on */
    struct book_entry last; /* of the number 0 in front of the first */
    struct book_fault fault; /* sound until one is met */
};

struct book_pass book_begin(struct book book);

/* Steps to the next entry. False at the book's end and at its first fault. */
bool book_step(struct book_pass *pass);

/* "A second part checks a book." */
struct book_fault book_check(struct book book);

/* The code pair of an event's two octets, SPA and SPQ/SPI (SD1 4.4.2). */
struct code_pair event_codes(const uint8_t *octets);

enum book_place { BOOK_NEITHER = 0, BOOK_CHOSEN = 1, BOOK_ITALIAN = 2 };

/* What a look-up gives: a refusal with the faulty book and its faulty entry; a
   name with the book and the entry it comes from; or no name, from neither. */
struct look_up {
    enum book_refusal refusal;
    enum book_place book;
    size_t entry;
    const uint8_t *name;
    size_t name_length;
};

/* "the name from the chosen book, or from the Italian book if the chosen one has
   none" */
struct look_up look_up(struct book chosen, struct book italian, struct code_pair codes);

#endif
