/* Ways to make a text other than it should be. */
#ifndef HARM_H
#define HARM_H

#include "bytes.h"

/* Harms the text in one way; there are HARMS ways, some of them random. */
enum { HARMS = 28 };
void harm(unsigned way, struct bytes *text);

/* Puts another number in the place of one: `which` counts the numbers of the text from 0. */
enum { HARD_NUMBERS = 12 };
extern const char *const hard_numbers[HARD_NUMBERS];
void set_number(size_t which, const char *number, struct bytes *text);

#endif
