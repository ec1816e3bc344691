/* The program `book` (README, "The program `book`"): makes a book from text, and
   text from a book. */
#include <stdio.h>
#include <stdlib.h>
#include <string.h>

#include "names.h"
#include "utf8.h"

enum { TEXT_OCTETS_MOST = 4000000 };

/* A part of the input: a text, a line, a word or a name. */
struct part {
    const uint8_t *octets;
    size_t length;
};

/* The names by SPA and SPQ: they leave sorted, whatever order they come in. A
   pair that no line has yet has a name of no octets. */
struct names {
    struct part of[256][256];
};

/* ---- a line taken apart ---- */

static void drop_front(struct part *part, size_t octets)
{
    part->octets += octets;
    part->length -= octets;
}

static bool is_blank(uint8_t octet) { return octet == ' ' || octet == '\t'; }

static void drop_blanks_in_front(struct part *part)
{
    while (part->length > 0 && is_blank(part->octets[0]))
        drop_front(part, 1);
}

static void drop_blanks_behind(struct part *part)
{
    while (part->length > 0 && is_blank(part->octets[part->length - 1]))
        part->length--;
}

/* "A byte order mark EF BB BF at the very start is passed over." */
static void drop_byte_order_mark(struct part *text)
{
    if (text->length >= 3 && memcmp(text->octets, "\xEF\xBB\xBF", 3) == 0)
        drop_front(text, 3);
}

/* "Lines end with 0A or 0D 0A; the last may end with the input (one 0D at its
   end is dropped too)." */
static struct part take_line(struct part *text)
{
    struct part line = *text;
    const uint8_t *end = memchr(text->octets, '\n', text->length);

    if (end != NULL)
        line.length = (size_t)(end - text->octets);
    drop_front(text, line.length + (end != NULL));
    if (line.length > 0 && line.octets[line.length - 1] == '\r')
        line.length--;
    return line;
}

/* The octets up to the next blank; the blanks behind them go, too. */
static struct part take_word(struct part *line)
{
    struct part word = {line->octets, 0};

    while (word.length < line->length && !is_blank(word.octets[word.length]))
        word.length++;
    drop_front(line, word.length);
    drop_blanks_in_front(line);
    return word;
}

/* "decimal numbers 0 to 255 (leading zeros are allowed)" */
static bool read_code(struct part word, uint8_t *code)
{
    unsigned number = 0;

    for (size_t i = 0; i < word.length; i++) {
        if (word.octets[i] < '0' || word.octets[i] > '9')
            return false;
        number = number * 10 + (word.octets[i] - '0');
        if (number > 255)
            return false;
    }
    *code = (uint8_t)number;
    return word.length > 0;
}

/* ---- text to book ---- */

/* Puts the line's name into its place. NULL, or why the line is refused; "a line
   is faulty for UTF-8 before anything else in it", in comments too. */
static const char *read_line(struct names *names, struct part line)
{
    struct code_pair codes;
    struct part *name;

    if (!is_utf8(line.octets, line.length))
        return "this is not UTF-8";
    drop_blanks_in_front(&line);
    if (line.length == 0 || line.octets[0] == '#')
        return NULL;
    if (!read_code(take_word(&line), &codes.spa))
        return "SPA is not a decimal number from 0 to 255";
    if (!read_code(take_word(&line), &codes.spq))
        return "SPQ is not a decimal number from 0 to 255";
    drop_blanks_behind(&line);
    if (line.length == 0)
        return "the name is missing";
    if (line.length > NAME_OCTETS_MOST)
        return "the name has over 40 octets";
    name = &names->of[codes.spa][codes.spq];
    if (name->length > 0)
        return "an earlier line has this code pair already";
    *name = line;
    return NULL;
}

/* False, and the first such line said, if a line is refused. */
static bool read_text(struct names *names, struct part text)
{
    drop_byte_order_mark(&text);
    for (size_t number = 1; text.length > 0; number++) {
        const char *reason = read_line(names, take_line(&text));

        if (reason != NULL) {
            fprintf(stderr, "line %zu: %s\n", number, reason);
            return false;
        }
    }
    return true;
}

static void write_entry(FILE *out, unsigned spa, unsigned spq, struct part name)
{
    putc((int)spa, out);
    putc((int)spq, out);
    putc((int)name.length, out);
    fwrite(name.octets, 1, name.length, out);
}

static void write_book(FILE *out, const struct names *names)
{
    putc(BOOK_VERSION, out);
    for (unsigned spa = 0; spa < 256; spa++)
        for (unsigned spq = 0; spq < 256; spq++)
            if (names->of[spa][spq].length > 0)
                write_entry(out, spa, spq, names->of[spa][spq]);
}

/* "Then nothing is written on standard output": so the whole text is read before
   anything is written. */
static bool book_from_text(FILE *out, struct part text)
{
    static struct names names; /* too large for the stack */

    if (text.length > TEXT_OCTETS_MOST) {
        fputs("text too long\n", stderr);
        return false;
    }
    if (!read_text(&names, text))
        return false;
    write_book(out, &names);
    return true;
}

/* ---- book to text ---- */

/* Refusal 1 has no words here: an input that does not start with 01 is a text. */
static const char *const reasons[] = {
    [BOOK_CUT] = "the entry is cut",
    [BOOK_NAME_LENGTH] = "the name has no octets, or over 40",
    [BOOK_ORDER] = "the code pair is not above the one before",
};

/* "for each entry, in the book's order, SPA and SPQ in decimal without leading
   zeros and the name's octets as they stand" */
static void write_text(FILE *out, struct book book)
{
    struct book_pass pass = book_begin(book);

    while (book_step(&pass)) {
        fprintf(out, "%d %d ", pass.last.codes.spa, pass.last.codes.spq);
        fwrite(pass.last.name, 1, pass.last.name_length, out);
        putc('\n', out);
    }
}

/* Nothing is written of a book that is faulty further on. */
static bool text_from_book(FILE *out, struct book book)
{
    struct book_fault fault = book_check(book);

    if (fault.refusal != BOOK_SOUND) {
        fprintf(stderr, "entry %zu: %s\n", fault.entry, reasons[fault.refusal]);
        return false;
    }
    write_text(out, book);
    return true;
}

/* "If the first octet of the input is 01, the input is a book." */
static bool convert(FILE *out, const uint8_t *octets, size_t length)
{
    struct book book = {octets, length};
    struct part text = {octets, length};

    if (length > 0 && octets[0] == BOOK_VERSION)
        return text_from_book(out, book);
    return book_from_text(out, text);
}

int main(void)
{
    /* One octet more than the longest text, to see that a text is longer. Of a
       longer book no more is needed: 65,536 entries of 43 octets are the most
       that can rise, so it has its first fault long before. */
    static uint8_t input[TEXT_OCTETS_MOST + 1];
    size_t length = fread(input, 1, sizeof input, stdin);
    bool done = convert(stdout, input, length);
    bool written = fflush(stdout) == 0 && !ferror(stdout);

    return done && written ? EXIT_SUCCESS : EXIT_FAILURE;
}
