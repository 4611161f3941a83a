/*
 * What `places` prints, from document 01 and from the drawing's book: no bits, brackets or packed bytes. A text is well formed
 * if it is, byte for byte, what its own numbers would be written as.
 */
#include "text.h"

#include <stdlib.h>
#include <string.h>

#include "account.h"

static const char names[] = "border first second mark\n";

/* Four numbers or words on a line. */
static void add_row(struct bytes *to, size_t a, size_t b, size_t c, size_t d)
{
    add_number(to, a);
    add_text(to, " ");
    add_number(to, b);
    add_text(to, " ");
    add_number(to, c);
    add_text(to, " ");
    add_number(to, d);
    add_text(to, "\n");
}

void write_drawing(const struct drawing *d, struct bytes *text)
{
    size_t e;
    text->length = 0;
    add_text(text, names);
    for (e = 0; e < d->m; e++) add_row(text, e, d->turning[2 * e], d->turning[2 * e + 1], d->marks[e]);
}

/* The number that stands at *i, up to 99,999; then *i is past it. */
static size_t number_at(const struct bytes *text, size_t *i)
{
    size_t number = 0;
    while (*i < text->length && text->at[*i] >= '0' && text->at[*i] <= '9' && number < 10000)
        number = 10 * number + (size_t)(text->at[(*i)++] - '0');
    return number;
}

/* The numbers that stand after the names, whatever separates them, as a drawing. Gives 0 if they are too many or too large. */
static int gather_numbers(const struct bytes *text, struct drawing *d, int fault)
{
    size_t i = sizeof names - 1;
    d->m = 0;
    d->start = 0;
    while (i < text->length) {
        size_t row[4], k;
        for (k = 0; k < 4; k++, i++) row[k] = number_at(text, &i);
        if (d->m == MOST_BORDERS || row[1] > 65535 || row[2] > 65535 || row[3] > 255) return fault == 1 && d->m < MOST_BORDERS;
        d->turning[2 * d->m] = (uint16_t)row[1];
        d->turning[2 * d->m + 1] = (uint16_t)row[2];
        d->marks[d->m++] = (uint8_t)row[3];
    }
    return 1;
}

/* Whether the text is well formed: then d is its drawing. */
static int read_drawing(const struct bytes *text, struct drawing *d, int fault)
{
    static struct bytes again;
    if (text->length < sizeof names - 1 || !gather_numbers(text, d, fault)) return 0;
    if (fault == 1) return 1;
    write_drawing(d, &again);
    if (fault == 2 && again.length == text->length + 1) again.length--;
    return again.length == text->length && memcmp(again.at, text->at, text->length) == 0;
}

static void write_listing(const struct book *b, struct bytes *out, int fault)
{
    size_t p;
    add_text(out, "place kind mate node area\n");
    for (p = 1; p <= 2 * b->drawing->m; p++) {
        size_t mate = book_cross(b, p).value;
        const char *kinds = marked(b->drawing, b->end_at[p]) ? "()" : "[]";
        add_number(out, p);
        add_text(out, " ");
        add_bytes(out, kinds + (fault == 3 ? mate > p : mate < p), 1);
        add_text(out, " ");
        add_number(out, mate);
        add_text(out, " ");
        add_number(out, book_point(b, p).value);
        add_text(out, " ");
        add_number(out, book_area(b, fault == 4 ? mate : p).value);
        add_text(out, fault == 5 && p == 2 * b->drawing->m ? "" : "\n");
    }
}

void account(const struct bytes *text, struct bytes *out, int fault)
{
    static struct drawing d;
    static struct book b;
    size_t refusal = 17;
    out->length = 0;
    if (read_drawing(text, &d, fault)) refusal = drawing_refusal(&d);
    if (fault == 6 && refusal == 7) refusal = 0;
    if (refusal == 0 && !make_book(&d, &b)) abort();
    if (refusal == 0) {
        write_listing(&b, out, fault);
        return;
    }
    add_refusal(out, refusal);
}
