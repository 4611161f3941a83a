/* Bytes that grow as they are added to. */
#ifndef BYTES_H
#define BYTES_H

#include <stddef.h>

struct bytes {
    unsigned char *at;
    size_t length;
    size_t room;
};

void add_bytes(struct bytes *to, const void *from, size_t length);
void add_text(struct bytes *to, const char *text);

/* In decimal digits, without leading zeros. */
void add_number(struct bytes *to, size_t number);

/* The line that a program prints for a refusal: "`refused`, a space and the number". */
void add_refusal(struct bytes *to, size_t number);

#endif
