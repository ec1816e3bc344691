/* A look-up of an event's name as tight as C has it: one loop over each book, by pointers. It reads the calls of the look-up face (second/README.md)
   and prints the same lines, for bench/names alone: nothing is refused in the input, which is right. */
#include <stdint.h>
#include <stdio.h>

static uint8_t input[8000000];

struct found {
    int refusal;
    size_t entry;
    const uint8_t *name;
    size_t length;
};

static struct found pass(const uint8_t *book, size_t length, unsigned wanted)
{
    struct found found = {0, 0, NULL, 0};
    const uint8_t *at = book + 1, *end = book + length;
    unsigned least = 0;

    if (length == 0 || book[0] != 1)
        return (struct found){1, 0, NULL, 0};
    for (size_t number = 1; at < end; number++) {
        size_t left = (size_t)(end - at);
        unsigned code;

        if (left < 3 || left - 3 < at[2])
            return (struct found){2, number, NULL, 0};
        if (at[2] < 1 || at[2] > 40)
            return (struct found){3, number, NULL, 0};
        code = at[0] * 256u + at[1];
        if (code < least)
            return (struct found){4, number, NULL, 0};
        if (code == wanted)
            found = (struct found){0, number, at + 3, at[2]};
        least = code + 1;
        at += 3 + at[2];
    }
    return found;
}

static void say(int book, struct found found)
{
    static const char figures[] = "0123456789ABCDEF";

    printf("%d %d %zu ", found.refusal, found.entry || found.refusal ? book : 0, found.entry);
    for (size_t i = 0; i < found.length; i++) {
        putchar(figures[found.name[i] / 16]);
        putchar(figures[found.name[i] % 16]);
    }
    puts(found.length ? "" : "-");
}

static void look_up(const uint8_t *const book[2], const size_t length[2], unsigned wanted)
{
    struct found chosen = pass(book[0], length[0], wanted);
    struct found italian;

    if (chosen.refusal)
        return say(1, chosen);
    italian = pass(book[1], length[1], wanted);
    if (italian.refusal || !chosen.entry)
        return say(2, italian);
    say(1, chosen);
}

static void check(const uint8_t *book, size_t length)
{
    struct found found = pass(book, length, 65536);

    printf("%d %zu\n", found.refusal, found.entry);
}

int main(void)
{
    size_t many = fread(input, 1, sizeof input, stdin), length[2] = {0, 0};
    const uint8_t *book[2] = {input, input};

    for (size_t at = 0; at < many;) {
        int which = input[at] == 'I';

        if (input[at] == 'L') {
            look_up(book, length, input[at + 1] * 256u + input[at + 2]);
            at += 3;
            continue;
        }
        length[which] = input[at + 1] * 65536u + input[at + 2] * 256u + input[at + 3];
        book[which] = input + at + 4;
        at += 4 + length[which];
        check(book[which], length[which]);
    }
    return 0;
}
