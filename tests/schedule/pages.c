/*
 * What `schedule` prints, from document 02, request 1/14, and from the drawing's book: no bits, brackets or packed bytes of its
 * own. The faults:
 *
 *    1  columns are left-aligned
 *    2  areas are numbered anew on each page
 *    3  sides and first place are exchanged
 *    4  the first place is one too low
 *    5  a page has 51 areas
 *    6  no empty line stands between pages
 *    7  only the first page has a heading
 *    8  an empty line stands before the total
 *    9  an empty line stands before the total where the last page is full
 *   10  a page without areas stands before the total where the last page is full
 *   11  the total is the number of areas
 *   12  no line feed follows the total
 *   13  each place is counted for the area across its border: the sides stay, the first places don't
 *   14  the first place of an unmarked border is so counted: the area after a [ is taken for the area before it
 *   15  no byte more is read than the longest map has
 *   16  a longer input is cut to the map's length
 *   17  8 is given for 9
 *   18  a map without borders has no area
 *   19  9 is given for 20
 *   20  cards without the count of areas are taken
 */
#include <stdlib.h>
#include <string.h>

#include "account.h"
#include "reference.h"

/* "each right-aligned in 5 columns" */
static void add_column(struct bytes *to, size_t number, int fault)
{
    static struct bytes digits;
    size_t k;
    digits.length = 0;
    add_number(&digits, number);
    if (fault == 1) add_bytes(to, digits.at, digits.length);
    for (k = digits.length; k < 5; k++) add_text(to, " ");
    if (fault != 1) add_bytes(to, digits.at, digits.length);
}

/* "number, sides and first place, .. with two spaces between" */
static void add_line(struct bytes *to, size_t area, size_t sides, size_t first, int fault)
{
    add_column(to, fault == 2 ? (area - 1) % 50 + 1 : area, fault);
    add_text(to, "  ");
    add_column(to, fault == 3 ? first : sides, fault);
    add_text(to, "  ");
    add_column(to, fault == 3 ? sides : fault == 4 && first > 0 ? first - 1 : first, fault);
    add_text(to, "\n");
}

/* "Each page has a heading line .., then 50 areas in order, fewer only on the last page .. An empty line stands between pages."
   Gives the sum of sides. */
static size_t add_pages(struct bytes *to, const struct book *b, int fault)
{
    static const char heading[] = " area  sides  first\n";
    size_t per_page = fault == 5 ? 51 : 50, sum = 0, k;
    for (k = 1; k <= b->areas; k++) {
        if (k > 1 && k % per_page == 1 && fault != 6) add_text(to, "\n");
        if (k % per_page == 1 && (fault != 7 || k == 1)) add_text(to, heading);
        add_line(to, k, b->sides[k], b->area_first[k], fault);
        sum += b->sides[k];
    }
    if (fault == 8) add_text(to, "\n");
    if (fault == 9 && b->areas % 50 == 0) add_text(to, "\n");
    if (fault == 10 && b->areas % 50 == 0) {
        add_text(to, "\n");
        add_text(to, heading);
    }
    return sum;
}

/* "The last line, straight after the last area's, is `total`, two spaces and the sum of sides, right-aligned in 5 columns." */
static void add_schedule(struct bytes *to, const struct book *b, int fault)
{
    size_t sum = add_pages(to, b, fault);
    add_text(to, "total  ");
    add_column(to, fault == 11 ? b->areas : sum, fault);
    if (fault != 12) add_text(to, "\n");
}

/* The book with places counted for the area across their border. */
static void count_wrongly(struct book *b, int fault)
{
    size_t p;
    memset(b->sides, 0, sizeof b->sides);
    for (p = 2 * b->drawing->m; p > 0; p--) {
        size_t mate = book_cross(b, p).value;
        int across = fault == 13 || (fault == 14 && mate > p && !marked(b->drawing, b->end_at[p]));
        size_t area = book_area(b, across ? mate : p).value;
        b->sides[area]++;
        b->area_first[area] = p;
    }
}

/* The refusal of an input, or 0 and the drawing that it unpacks to. */
static uint8_t open_map(const struct bytes *input, struct drawing *d, int fault)
{
    size_t length = input->length;
    uint8_t refusal;
    if (fault == 15 && length > LONGEST) length = LONGEST;
    if (fault == 16 && length > LONGEST) length = LONGEST + 1;
    refusal = unpack(input->at, length, d);
    while (fault == 16 && refusal == 9 && length > HEADER) refusal = unpack(input->at, --length, d);
    if (fault == 20 && refusal != 0 && unpack_before(input->at, length, d) == 0) return 0;
    if (fault == 19 && refusal == 20) return 9;
    return fault == 17 && refusal == 9 ? 8 : refusal;
}

void account(const struct bytes *input, struct bytes *output, int fault)
{
    static struct drawing d;
    static struct book b;
    uint8_t refusal = open_map(input, &d, fault);
    output->length = 0;
    if (refusal != 0) {
        add_refusal(output, refusal);
        return;
    }
    if (!make_book(&d, &b)) abort();
    if (fault == 13 || fault == 14) count_wrongly(&b, fault);
    if (fault == 18 && d.m == 0) b.areas = 0;
    add_schedule(output, &b, fault);
}
