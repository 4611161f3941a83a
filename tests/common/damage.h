/* Bytes that are no map, or may be none: all strings, damaged cards, headers about every bound. Each is handed to `try`. */
#ifndef DAMAGE_H
#define DAMAGE_H

#include <stddef.h>
#include <stdint.h>

/* No bytes that are tried are longer. */
enum { MOST_BYTES = 8192 };

typedef void try_bytes(const uint8_t *bytes, size_t length);

/* Cards of up to `most` borders with every string of the right length, balanced or not. */
void each_string(size_t most, try_bytes *try);

/* A card as it was made before request 6/14, without the count of areas. Gives its length. */
size_t without_count(const uint8_t *card, size_t length, uint8_t *old);

/* The card without its count, every prefix of it, the card with a byte more, and every single bit of it flipped. */
void each_damage(const uint8_t *card, size_t length, try_bytes *try);

/* m and n about every bound, with the right count of areas and others, and with lengths about the one that they give; all strings
   are 0. */
void each_header(try_bytes *try);

#endif
