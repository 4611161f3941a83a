/* Ways to make a text other than it should be. */
#include "harm.h"

#include <stdlib.h>
#include <string.h>

#include "cards.h"

const char *const hard_numbers[HARD_NUMBERS] = {
    "65535", "65536", "255", "256", "2", "0", "1", "99999999999999999999999", "18446744073709551616", "00", "01", "",
};

/* Puts `length` bytes in the place of `gone` bytes at `at`. */
static void replace(struct bytes *text, size_t at, size_t gone, const void *bytes, size_t length)
{
    struct bytes tail = {NULL, 0, 0};
    if (at > text->length) at = text->length;
    if (gone > text->length - at) gone = text->length - at;
    add_bytes(&tail, text->at + at + gone, text->length - at - gone);
    text->length = at;
    add_bytes(text, bytes, length);
    add_bytes(text, tail.at, tail.length);
    free(tail.at);
}

static int is_digit(const struct bytes *text, size_t at)
{
    return at < text->length && text->at[at] >= '0' && text->at[at] <= '9';
}

static int begins_number(const struct bytes *text, size_t at)
{
    return is_digit(text, at) && (at == 0 || !is_digit(text, at - 1));
}

/* Where some such byte stands, or where some number begins ('0'); the end of the text if none does. */
static size_t find(const struct bytes *text, char what)
{
    size_t i, from = random_below(text->length + 1);
    for (i = 0; i < text->length; i++) {
        size_t at = (from + i) % text->length;
        if (what == '0' ? begins_number(text, at) : text->at[at] == (unsigned char)what) return at;
    }
    return text->length;
}

void set_number(size_t which, const char *number, struct bytes *text)
{
    size_t at = 0, k = 0;
    while (at < text->length && !(begins_number(text, at) && which-- == 0)) at++;
    while (is_digit(text, at + k)) k++;
    replace(text, at, k, number, strlen(number));
}

/* Puts a word before some byte, or in the place of some byte, of this kind. */
static void put_before(struct bytes *text, char what, const char *word)
{
    replace(text, find(text, what), 0, word, strlen(word));
}

static void put_for(struct bytes *text, char what, const char *word)
{
    replace(text, find(text, what), 1, word, strlen(word));
}

void harm(unsigned way, struct bytes *text)
{
    size_t k;
    unsigned char any;

    switch (way) {
    case 0: put_before(text, '0', "0"); break; /* a leading zero */
    case 1: replace(text, text->length - (text->length > 0), 1, "", 0); break; /* no last line feed */
    case 2: put_before(text, '\n', "\r"); break;
    case 3: put_for(text, ' ', "\t"); break;
    case 4: replace(text, random_below(text->length + 1), 0, "", 1); break; /* a byte 0 */
    case 5: replace(text, 0, 0, "\xef\xbb\xbf", 3); break; /* a byte order mark */
    case 6: put_before(text, '0', "+"); break;
    case 7: put_before(text, '0', "-"); break;
    case 8: put_before(text, ' ', " "); break;
    case 9: put_before(text, '\n', " "); break;
    case 10: put_before(text, '0', " "); break;
    case 11: add_text(text, "\n"); break;
    case 12: put_before(text, '\n', "\n"); break;
    case 13: put_for(text, ' ', ""); break;
    case 14: put_for(text, '\n', ""); break;
    case 15: replace(text, random_below(text->length + 1), text->length, "", 0); break; /* cut short */
    case 16: put_for(text, '0', ""); break; /* a digit left out */
    case 17: add_text(text, "0 0 0 0\n"); break; /* a line more, with a number out of order */
    case 18: add_text(text, "border first second mark\n"); break;
    case 19: put_for(text, 'b', "B"); break;
    case 20: replace(text, 0, find(text, '\n'), "", 0); break;
    case 21: put_before(text, '0', "0x"); break;
    case 22: put_before(text, '\n', ".0"); break;
    case 23:
        any = (unsigned char)random_below(256);
        replace(text, random_below(text->length + 1), random_below(2), &any, 1);
        break;
    case 24: text->length = 0; break;
    case 25: put_for(text, '\n', "\f"); break;
    default:
        for (k = random_below(3) + 1; k > 0; k--) set_number(random_below(48), hard_numbers[random_below(HARD_NUMBERS)], text);
    }
}
