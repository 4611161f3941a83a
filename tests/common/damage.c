/* Bytes that are no map, or may be none. */
#include "damage.h"

#include <string.h>

#include "cards.h"

void each_string(size_t most, try_bytes *try)
{
    struct card card;
    size_t m, n;
    uint64_t strings;
    for (m = 0; m <= most; m++)
        for (n = 1; n <= m + 1; n++)
            for (strings = 0; strings < (uint64_t)1 << 4 * m; strings++) {
                card_of_strings(&card, m, n, strings);
                try(card.bytes, card.length);
            }
}

size_t without_count(const uint8_t *card, size_t length, uint8_t *old)
{
    memcpy(old, card, AT_AREAS);
    memcpy(old + AT_AREAS, card + HEADER, length - HEADER);
    return length - (HEADER - AT_AREAS);
}

void each_damage(const uint8_t *card, size_t length, try_bytes *try)
{
    uint8_t copy[LONGEST + 1];
    size_t i = without_count(card, length, copy);
    try(copy, i);
    for (i = 0; i < length; i++) try(card, i);
    memcpy(copy, card, length);
    for (i = 0; i < 256; i += 51) {
        copy[length] = (uint8_t)i;
        try(copy, length + 1);
    }
    for (i = 0; i < 8 * length; i++) {
        copy[i / 8] ^= (uint8_t)(1u << i % 8);
        try(copy, length);
        copy[i / 8] ^= (uint8_t)(1u << i % 8);
    }
}

/* The right count of areas, others beside it, and it with its bytes exchanged; lengths about the one that m and n give. */
static void each_count(uint8_t *bytes, size_t m, size_t n, try_bytes *try)
{
    size_t right = (m + 2 - n) % 65536, counts[] = {right, right + 1, right + 65535, right + 256, right % 256 * 256 + right / 256, n, 0, 65535};
    size_t length = HEADER + (n >= 1 && n <= m + 1 ? strings_length(m, n) : bytes_of(2 * m)), k, add;
    put_field(bytes, AT_M, m);
    put_field(bytes, AT_N, n);
    for (k = 0; k < sizeof counts / sizeof *counts; k++) {
        put_field(bytes, AT_AREAS, counts[k] % 65536);
        for (add = 0; add < 3; add++)
            if (length + add - 1 <= MOST_BYTES) try(bytes, length + add - 1);
    }
}

void each_header(try_bytes *try)
{
    static const size_t m_values[] = {0, 1, 2, 4, 5, 255, 256, 2047, 2048, 2049, 4096, 32768, 65535};
    static uint8_t bytes[MOST_BYTES];
    size_t i, j;
    for (i = 0; i < sizeof m_values / sizeof *m_values; i++) {
        size_t m = m_values[i], n_values[] = {0, 1, 2, m / 2, m, m + 1, m + 2, 2 * m, 65535};
        for (j = 0; j < sizeof n_values / sizeof *n_values; j++) each_count(bytes, m, n_values[j] % 65536, try);
    }
}
