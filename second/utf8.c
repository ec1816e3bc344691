#include "utf8.h"

/* The forms of a character, as section 4 of RFC 3629 lists them: where its first
   octet lies, where its second, and how many there are. The narrower bounds of
   the second octet leave out overlong forms (E0, F0), surrogates (ED) and what
   is above U+10FFFF (F4). Octets behind the second are all 80 to BF. */
static const struct form {
    uint8_t first_from, first_to;
    uint8_t second_from, second_to;
    uint8_t length;
} forms[] = {
    {0x00, 0x7F, 0x00, 0x00, 1},
    {0xC2, 0xDF, 0x80, 0xBF, 2},
    {0xE0, 0xE0, 0xA0, 0xBF, 3},
    {0xE1, 0xEC, 0x80, 0xBF, 3},
    {0xED, 0xED, 0x80, 0x9F, 3},
    {0xEE, 0xEF, 0x80, 0xBF, 3},
    {0xF0, 0xF0, 0x90, 0xBF, 4},
    {0xF1, 0xF3, 0x80, 0xBF, 4},
    {0xF4, 0xF4, 0x80, 0x8F, 4},
};

static bool lies(uint8_t octet, uint8_t from, uint8_t to)
{
    return from <= octet && octet <= to;
}

static const struct form *form_of(uint8_t first)
{
    for (size_t i = 0; i < sizeof forms / sizeof forms[0]; i++)
        if (lies(first, forms[i].first_from, forms[i].first_to))
            return &forms[i];
    return NULL;
}

/* The length of the character that the octets start with, 0 if there is none. */
static size_t character_length(const uint8_t *octets, size_t length)
{
    const struct form *form = form_of(octets[0]);

    if (form == NULL || length < form->length)
        return 0;
    if (form->length > 1 && !lies(octets[1], form->second_from, form->second_to))
        return 0;
    for (size_t i = 2; i < form->length; i++)
        if (!lies(octets[i], 0x80, 0xBF))
            return 0;
    return form->length;
}

bool is_utf8(const uint8_t *octets, size_t length)
{
    while (length > 0) {
        size_t taken = character_length(octets, length);

        if (taken == 0)
            return false;
        octets += taken;
        length -= taken;
    }
    return true;
}
