#include "face.h"

bool read_octets(FILE *in, uint8_t *octets, size_t length)
{
    return length == 0 || fread(octets, 1, length, in) == length;
}

bool read_number(FILE *in, size_t octets, size_t *number)
{
    *number = 0;
    for (size_t i = 0; i < octets; i++) {
        int octet = getc(in);

        if (octet == EOF)
            return false;
        *number = *number << 8 | (size_t)octet;
    }
    return true;
}

enum call_read read_counted(FILE *in, uint8_t *octets, size_t most, size_t *length)
{
    if (!read_number(in, 3, length))
        return CALL_CUT;
    if (*length > most)
        return CALL_WRONG;
    return read_octets(in, octets, *length) ? CALL_DONE : CALL_CUT;
}

bool close_call(FILE *out, enum call_read read)
{
    if (read == CALL_CUT)
        fputs("cut\n", out);
    if (read == CALL_WRONG)
        fputs("call\n", out);
    return fflush(out) == 0;
}

const char *order_name(enum order order)
{
    switch (order) {
    case ORDER_CLOCK:
        return "clock";
    case ORDER_DATES:
        return "dates";
    case ORDER_NONE:
        break;
    }
    return "-";
}

void write_hex(FILE *out, const uint8_t *octets, size_t length, bool apart)
{
    static const char digits[] = "0123456789ABCDEF";

    if (length == 0)
        putc('-', out);
    for (size_t i = 0; i < length; i++) {
        if (apart && i > 0)
            putc(' ', out);
        putc(digits[octets[i] >> 4], out);
        putc(digits[octets[i] & 0x0F], out);
    }
}
