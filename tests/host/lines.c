/* A map and a tariff by hand. */
#include "lines.h"

#include <string.h>

#include "cards.h"
#include "lending.h"
#include "tally.h"

static struct card card;
static uint8_t kinds[MOST_KINDS];
static uint64_t values[MOST_VALUES];
static struct tariff tariff = {kinds, 0, values, 0};

size_t take_map(const char *places)
{
    size_t areas = areas_of_kinds(places);
    card_of_kinds(&card, places);
    put_lengths(areas, PER_AREA * areas);
    return areas;
}

void take_bytes(const uint8_t *bytes, size_t length)
{
    memcpy(card.bytes, bytes, length);
    card.length = length;
}

void put_line(size_t area, struct line line)
{
    size_t i;
    put_kind(area, line.kind);
    for (i = 0; i < PER_AREA; i++) put_value(area, i, bits_of(line.values[i]));
}

void put_kind(size_t area, uint8_t kind)
{
    kinds[area - 1] = kind;
}

void put_value(size_t area, size_t field, uint64_t bits)
{
    values[PER_AREA * (area - 1) + field] = bits;
}

void put_lengths(size_t kinds_len, size_t values_len)
{
    tariff.kinds_len = kinds_len;
    tariff.values_len = values_len;
}

void compare_want(size_t area, struct want want)
{
    static struct loan map_loan;
    struct factor factor = {want.status, bits_of(want.factor)};
    const uint8_t *map = lend(&map_loan, card.bytes, card.length);
    compare_factor(map, card.length, &tariff, area, factor);
    expect(take_back(&map_loan, card.bytes), "pmap_factor", "the card was changed");
}

void compare_answer(size_t area, double factor)
{
    struct want want = {0, factor};
    compare_want(area, want);
}

void compare_status(size_t area, uint8_t status)
{
    struct want want = {status, 0.0};
    compare_want(area, want);
}
