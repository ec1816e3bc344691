/* "Asking changes nothing" (document 02, #105), octet for octet: cards are led
   through random calls, and each is compared with its copy behind every question.
   What is lent is copied into memory of its exact length, so that the sanitizers
   see a read behind its end. Prints how many questions were asked. */
#include <stdio.h>
#include <stdlib.h>
#include <string.h>

#include "../why.h"

enum { CALLS = 20000, MESSAGE_MOST = 300 };

/* The image of document 01's example: link address 1, point 1, its password. */
static const uint8_t sound[] = {1, 0, 9, 1, 0, 1, 0, 0, 0, 0, 0, 0, 0, 7, 2, 0, 1,
                                0x12, 0x34, 0x56, 0x78};
static const uint8_t opening[] = {183, 1, 6, 1, 0, 0, 0x78, 0x56, 0x34, 0x12};

static unsigned chance(unsigned below)
{
    static uint32_t state = 105;

    state = state * 1664525u + 1013904223u;
    return (state >> 8) % below;
}

/* A message: the right password or random octets behind a type of the table. */
static size_t draw_message(uint8_t *message)
{
    static const uint8_t types[] = {100, 102, 103, 122, 123, 181, 183, 185, 186, 187, 0};
    size_t length = chance(3) == 0 ? chance(MESSAGE_MOST) : 6 + chance(14);

    if (chance(4) == 0) {
        memcpy(message, opening, sizeof opening);
        return sizeof opening;
    }
    for (size_t i = 0; i < length; i++)
        message[i] = (uint8_t)chance(256);
    if (length >= HEADER_OCTETS && chance(8) != 0) {
        const uint8_t header[] = {types[chance(sizeof types)], (uint8_t)chance(2),
                                  (uint8_t)(5 + chance(2)), 1, 0, 0};

        memcpy(message, header, sizeof header);
    }
    return length;
}

static size_t draw_run(uint8_t *run)
{
    static const uint8_t controls[] = {0x40, 0x49, 0x5B, 0x7B, 0x5B, 0x7B};
    static const struct link_address link = {1};
    uint8_t message[MESSAGE_MOST];
    size_t length = draw_message(message);

    if (chance(3) == 0 || length > USER_OCTETS_MOST)
        return frame_write_fixed(run, controls[chance(sizeof controls)], link);
    return frame_write_variable(run, chance(2) ? 0x53 : 0x73, link, message, length);
}

static uint8_t *exact(const uint8_t *octets, size_t length)
{
    uint8_t *copy;

    if (length == 0)
        return NULL;
    copy = malloc(length);
    if (copy == NULL)
        exit(EXIT_FAILURE);
    memcpy(copy, octets, length);
    return copy;
}

/* True if nothing has changed behind the question. */
static bool asks(const struct card *card, const uint8_t *message, size_t length)
{
    static const uint8_t clock[LABEL_B_OCTETS] = {0xE7, 0xEF, 0x0F, 0, 0x21, 1, 1};
    struct card before;
    size_t image_length = chance(8) == 0 ? chance(sizeof sound) : sizeof sound;
    uint8_t *image = exact(sound, image_length);
    uint8_t *given = exact(message, length);
    struct question question = {image, image_length, clock, given, length};
    struct why why;
    bool same;

    memcpy(&before, card, sizeof before);
    why = why_ask(card, &question);
    same = memcmp(&before, card, sizeof before) == 0 &&
           (length == 0 || memcmp(given, message, length) == 0) &&
           (image_length == 0 || memcmp(image, sound, image_length) == 0) &&
           (why_word(&why) == NULL) == (why.number != WHY_NAMED);
    free(image);
    free(given);
    return same;
}

/* A run, now and then with a parity bit that may be wrong. */
static void give_run(struct card *card)
{
    uint8_t run[FRAME_OCTETS_MOST];
    size_t length = draw_run(run);

    for (size_t at = 0; at < length; at++)
        if (chance(500) == 0)
            card_character(card, run[at], chance(2) == 1);
        else
            card_octet(card, run[at]);
}

int main(void)
{
    static const uint8_t clock[LABEL_B_OCTETS] = {0};
    static struct card card;
    uint8_t buffer[FRAME_OCTETS_MOST];
    struct lent lent = {sound, sizeof sound, clock, buffer, sizeof buffer};
    unsigned open = 0, waiting = 0;

    card_power_on(&card);
    for (unsigned i = 0; i < CALLS; i++) {
        uint8_t message[MESSAGE_MOST];

        give_run(&card);
        if (!asks(&card, message, draw_message(message))) {
            printf("asking changed something: call %u\n", i);
            return EXIT_FAILURE;
        }
        open += card.session.open;
        waiting += card.waiting.next != NEXT_NONE;
        if (chance(10) != 0)
            card_gap(&card, &lent);
    }
    printf("asking: %d questions, %u with a session, %u with replies waiting, "
           "nothing changed\n", CALLS, open, waiting);
    return open > 0 && waiting > 0 ? EXIT_SUCCESS : EXIT_FAILURE;
}
