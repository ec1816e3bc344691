/* floor FILE TIMES: reads every octet of a file's image once, so many times over, and does nothing else with it: what a gap
   that looks at the whole image costs at least. */
#include <stdint.h>
#include <stdio.h>
#include <stdlib.h>

static uint8_t image[65536];

/* An octet at a time, as a walk over records reads; the asm keeps the compiler from leaving a reading out or joining several. */
static unsigned read_once(const uint8_t *octets, size_t length)
{
    unsigned sum = 0;

    for (size_t i = 0; i < length; i++) {
        sum += octets[i];
        __asm__ volatile("" : "+r"(sum));
    }
    return sum;
}

int main(int words, char **word)
{
    FILE *file = words == 3 ? fopen(word[1], "rb") : NULL;
    size_t length;
    unsigned sum = 0;

    if (file == NULL)
        return EXIT_FAILURE;
    length = fread(image, 1, sizeof image, file);
    fclose(file);
    for (long times = atol(word[2]); times > 0; times--)
        sum += read_once(image, length);
    return sum == 1 ? EXIT_FAILURE : EXIT_SUCCESS;
}
