/* What is UTF-8 (RFC 3629). */
#ifndef UTF8_H
#define UTF8_H

#include <stdbool.h>
#include <stddef.h>
#include <stdint.h>

bool is_utf8(const uint8_t *octets, size_t length);

#endif
