/*
 * The count of areas on the card, request 6/14 of document 02: "Two bytes, low first, follow n and hold m-n+2", and "20 when the
 * written count isn't m-n+2, between 8 and 9".
 */
#include "counts.h"

#include <string.h>

#include "cards.h"
#include "compare.h"
#include "damage.h"
#include "examples.h"
#include "tally.h"

/* ---- every count ---- */

/* Each 512th of the others and those beside the right one get every call. */
static void compare_counts(const uint8_t *bytes, size_t length, size_t areas)
{
    uint8_t copy[LONGEST];
    size_t count;
    memcpy(copy, bytes, length);
    for (count = 0; count < 65536; count++) {
        put_field(copy, AT_AREAS, count);
        if (count == areas) compare_bytes(copy, length);
        else if (count % 512 == 0 || count + 1 == areas || count == areas + 1) compare_refused(copy, length, 20);
        else compare_refused_open(copy, length, 20);
    }
}

void every_count(int small)
{
    compare_counts(CARD(loop), 2);
    if (!small) {
        compare_counts(CARD(empty), 1);
        compare_counts(CARD(stub), 1);
        compare_counts(CARD(triangle), 2);
        compare_counts(CARD(figure_1), 8);
    }
    part_ends(small ? "every count of areas on a small card" : "every count of areas on document 01's maps");
}

/* ---- 20 among the others ---- */

/* What may be wrong, in the order in which it is looked for. */
enum { NUMBERS = 1, COUNT = 2, LENGTH = 4, UNUSED = 8, ONES = 16, BRACKETS = 32, WRONGS = 64 };

static uint8_t first_of(unsigned wrong)
{
    static const uint8_t order[] = {8, 20, 9, 10, 11, 12};
    size_t i = 0;
    while (!(wrong >> i & 1)) i++;
    return order[i];
}

/* How it is wrong: other numbers of borders and points, how far the count is off, a byte more or fewer. */
struct wrongly {
    size_t m, n, off;
    int more;
};

static void compare_wrong(unsigned wrong, const struct wrongly *how)
{
    uint8_t bytes[sizeof stub + 1] = {0};
    size_t m = wrong & NUMBERS ? how->m : 1, n = wrong & NUMBERS ? how->n : 2, length = sizeof stub;
    memcpy(bytes, stub, length);
    put_field(bytes, AT_M, m);
    put_field(bytes, AT_N, n);
    put_field(bytes, AT_AREAS, (m + 2 - n + (wrong & COUNT ? how->off : 0)) % 65536);
    if (wrong & UNUSED) bytes[HEADER] ^= 0x04;
    if (wrong & ONES) bytes[HEADER] ^= 0x02;
    if (wrong & BRACKETS) bytes[HEADER + 1] ^= 0x03;
    if (wrong & LENGTH) length += how->more ? 1 : (size_t)-1;
    if (wrong == 0) compare_bytes(bytes, length);
    else compare_refused(bytes, length, first_of(wrong));
}

void counts_in_order(void)
{
    static const struct { size_t m, n; } numbers[] = {{1, 0}, {1, 3}, {0, 2}, {2049, 1}, {2049, 2050}, {65535, 65535}};
    static const size_t offs[] = {1, 2, 255, 256, 65535};
    struct wrongly how;
    size_t i, k, length;
    unsigned wrong;
    for (wrong = 0; wrong < WRONGS; wrong++)
        for (i = 0; i < sizeof numbers / sizeof *numbers; i++)
            for (k = 0; k < sizeof offs / sizeof *offs; k++)
                for (how.more = 0; how.more < 2; how.more++) {
                    how.m = numbers[i].m;
                    how.n = numbers[i].n;
                    how.off = offs[k];
                    compare_wrong(wrong, &how);
                }
    for (length = 0; length < sizeof stub; length++) compare_refused(stub, length, length < HEADER ? 8 : 9);
    part_ends("20 among the other refusals, each with each");
}

/* ---- cards that were made before ---- */

/* Today's card without its count: "Boxes already sold keep their cards and program." */
static void compare_before(const uint8_t *bytes, size_t length)
{
    static struct drawing drawing, before;
    uint8_t old[LONGEST], status = 20;
    size_t old_length = without_count(bytes, length, old);
    expect(unpack(bytes, length, &drawing) == 0, "reference", "does not open a card of today");
    expect(unpack_before(old, old_length, &before) == 0 && same_drawing(&drawing, &before), "reference",
           "a box already sold does not read its own card");
    expect(unpack_before(bytes, length, &before) == 9, "reference", "a box already sold does not give 9 for a card of today");
    if (drawing.m == 0) status = 8;
    else if (field_at(old, AT_AREAS) == field_at(bytes, AT_AREAS)) status = 9;
    compare_refused(old, old_length, status);
}

static void compare_forms(const uint8_t *bytes, size_t length)
{
    static struct drawing drawing;
    uint8_t today = unpack(bytes, length, &drawing), before = unpack_before(bytes, length, &drawing);
    expect(today != 0 || before == 9, "reference", "a box already sold does not give 9 for a card of today");
    expect(before != 0 || today == 8 || today == 20 || today == 9, "reference", "a card made before opens today");
}

void cards_before(int small)
{
    static const uint8_t five[] = {5, 0, 2, 0, 5, 0, 5, 0, 2, 0xAA}; /* A begins with 05 00, and there are five areas */
    struct card card;
    size_t count, m;
    compare_before(CARD(triangle));
    compare_before(CARD(figure_1));
    compare_before(CARD(empty));
    compare_before(CARD(stub));
    compare_before(CARD(loop));
    compare_before(CARD(five));
    for (count = small ? 60 : 3000; count > 0; count--) {
        m = random_below(count % 100 == 0 ? MOST_BORDERS + 1 : 30);
        random_card(&card, m, 1 + random_below(m + 1), (unsigned)random_below(9));
        compare_before(card.bytes, card.length);
    }
    each_string(small ? 2 : 3, compare_forms);
    each_header(compare_forms);
    part_ends("cards that were made before the count");
}
