/* Bytes that grow as they are added to. */
#include "bytes.h"

#include <stdlib.h>
#include <string.h>

void add_bytes(struct bytes *to, const void *from, size_t length)
{
    while (to->room < to->length + length) {
        to->room = 2 * to->room + 64;
        to->at = realloc(to->at, to->room);
        if (to->at == NULL) abort();
    }
    if (length > 0) memcpy(to->at + to->length, from, length);
    to->length += length;
}

void add_text(struct bytes *to, const char *text)
{
    add_bytes(to, text, strlen(text));
}

void add_number(struct bytes *to, size_t number)
{
    char digits[24];
    size_t k = sizeof digits;
    do {
        digits[--k] = (char)('0' + number % 10);
        number /= 10;
    } while (number != 0);
    add_bytes(to, digits + k, sizeof digits - k);
}

void add_refusal(struct bytes *to, size_t number)
{
    add_text(to, "refused ");
    add_number(to, number);
    add_text(to, "\n");
}
