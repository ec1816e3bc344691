/* The proved functions over a collector that is lent (`collector::collect`, `collector::collect_character`), called from C beside the second
   program's card: after every octet, or character of eleven bits, the two hold the same, from empty to full to overfull, marked or not. Prints how
   many were compared; status 1 at a difference. */
#include <stdbool.h>
#include <stdint.h>
#include <stdio.h>
#include <string.h>

#include "card.h"

/* collector::Collector, #[repr(C)]: the octets, zeros behind them; a length over 261 means overfull, which has no mark */
struct lent_collector {
    uint8_t octets[FRAME_OCTETS_MOST];
    bool marked;
    uint16_t length;
};

void collect(struct lent_collector *collector, uint8_t octet);
void collect_character(struct lent_collector *collector, uint8_t octet, bool parity_bit);

enum { RUNS = 400, LONGEST = 300, OVERFULL = FRAME_OCTETS_MOST + 1 };

static uint32_t state = 20261115;

static uint32_t any(void)
{
    state ^= state << 13;
    state ^= state >> 17;
    state ^= state << 5;
    return state;
}

/* What the proved collector should hold, by the second program's. */
static struct lent_collector expected(const struct collector *collector)
{
    struct lent_collector same = {{0}, false, 0};
    if (collector->overfull) {
        same.length = OVERFULL;
        return same;
    }
    memcpy(same.octets, collector->octets, collector->length);
    same.length = (uint16_t)collector->length;
    same.marked = collector->marked;
    return same;
}

static bool agree(const struct lent_collector *lent, const struct collector *collector)
{
    struct lent_collector same = expected(collector);
    return lent->length == same.length && lent->marked == same.marked && memcmp(lent->octets, same.octets, sizeof same.octets) == 0;
}

/* The right parity bit, but for one character in 128 */
static bool parity_bit(uint8_t octet)
{
    bool odd = false;
    for (unsigned bits = octet; bits != 0; bits >>= 1)
        odd ^= bits & 1;
    return odd ^ (any() % 128 == 0);
}

int main(void)
{
    unsigned long compared = 0;
    for (int run = 0; run < RUNS; run++) {
        struct lent_collector lent = {{0}, false, 0};
        struct card card;
        card_power_on(&card);
        /* a quarter of the runs is longer than a frame can be, and every second one has eleven bits */
        uint32_t length = run % 4 == 0 ? LONGEST : any() % LONGEST;
        bool eleven_bits = run / 4 % 2 == 1;
        for (uint32_t i = 0; i < length; i++) {
            uint8_t octet = (uint8_t)(any() >> 8);
            if (eleven_bits) {
                bool parity = parity_bit(octet);
                collect_character(&lent, octet, parity);
                card_character(&card, octet, parity);
            } else {
                collect(&lent, octet);
                card_octet(&card, octet);
            }
            compared++;
            if (!agree(&lent, &card.collector)) {
                printf("lent: run %d, octet %lu: length %u against %zu%s\n", run + 1, (unsigned long)i + 1, lent.length,
                       card.collector.length, card.collector.overfull ? ", overfull" : "");
                return 1;
            }
        }
    }
    printf("lent: %lu octets and characters into %d collectors, no difference\n", compared, RUNS);
    return 0;
}
