/* Marks that are found: by hand, and for drawings by chance, in the plane or not, of one part or several, small and large. */
#include "parts.h"

#include <string.h>

#include "cards.h"
#include "compare.h"
#include "drawings.h"
#include "lending.h"
#include "pmap.h"
#include "tally.h"

static struct drawing drawing, second, found;

/* ---- found, and packed ---- */

/* Packs a drawing that passes 1 to 6 from this start: it is refused with 7 exactly if it is not one in the plane. */
static size_t pack_from(struct drawing *d, size_t start, uint8_t *map)
{
    struct lent lent;
    d->start = start;
    lent = lend_drawing(d);
    return compare_pack_status(&lent, map, in_plane(d) ? 0 : 7);
}

/* The drawing with the marks that were found, and with another tree: both are packed, with the same header, or both are refused. */
static void pack_both(struct drawing *d)
{
    static struct drawing by_chance;
    uint8_t map[LONGEST], other_map[LONGEST];
    size_t last = d->m > 0 ? 2 * d->m - 1 : 0, starts[] = {0, last, random_below(last + 1)}, i;
    by_chance = *d;
    for (i = 0; i < sizeof starts / sizeof *starts; i++) {
        size_t length = pack_from(d, starts[i], map), other_length;
        mark_tree(&by_chance);
        other_length = pack_from(&by_chance, starts[i], other_map);
        expect((length > 0) == (other_length > 0), "pmap_pack", "refuses one tree of a drawing and not another");
        if (length > 0) expect(memcmp(map, other_map, HEADER) == 0, "pmap_pack", "another header with another tree");
    }
}

/* What the marks hold before they are found, in several ways: one number in all of them, 0 and 1 by chance, anything. */
enum { SAME = 3, WAYS = SAME + 2 };

static void hold(struct drawing *d, size_t way)
{
    static const uint8_t numbers[SAME] = {255, 0, 1};
    size_t e;
    fill(d->marks, d->m);
    for (e = 0; e < d->m && way < WAYS - 1; e++) d->marks[e] = way < SAME ? numbers[way] : d->marks[e] % 2;
}

void compare_found(const struct drawing *d)
{
    static struct drawing before, again, first;
    size_t way, times = 0;
    before = *d;
    for (way = 0; way < WAYS; way++) {
        struct lent lent;
        hold(&before, way);
        lent = lend_drawing(&before);
        if (!compare_marks(&lent, &again)) continue;
        if (times++ == 0) first = again;
        else expect(memcmp(first.marks, again.marks, d->m) == 0, "pmap_marks", "other marks where the list held others before");
    }
    if (times == WAYS) pack_both(&first);
}

/* ---- by hand: drawings that have one tree, or none ---- */

/* Whatever the marks hold before. The ones wanted are NULL where they are refused. */
static void finds(const uint16_t *turning, size_t turning_len, size_t marks_len, size_t work_len, uint8_t status, const uint8_t *want)
{
    static const uint8_t before[] = {0, 1, 255};
    uint16_t work[64];
    uint8_t marks[8], as_before[8];
    size_t i;
    for (i = 0; i < sizeof before; i++) {
        memset(work, 0xA5, sizeof work);
        memset(marks, before[i], sizeof marks);
        memset(as_before, before[i], sizeof as_before);
        expect(pmap_marks(turning, turning_len, marks, marks_len, work, work_len) == status, "pmap_marks", "another status by hand");
        expect(memcmp(marks, want == NULL ? as_before : want, marks_len) == 0, "pmap_marks", "other marks by hand");
        expect(memcmp(marks + marks_len, as_before, sizeof marks - marks_len) == 0, "pmap_marks", "writes beyond the marks");
    }
}

#define FINDS(turning, want) finds(turning, sizeof turning / 2, sizeof want, 3 * sizeof turning / 2, 0, want)
#define FINDS_NONE(turning, status) finds(turning, sizeof turning / 2, sizeof turning / 4, 64, status, NULL)

void known_marks(void)
{
    static const uint16_t border[] = {0, 1}, loop[] = {1, 0}, interlaced[] = {2, 3, 1, 0}, path[] = {0, 2, 1, 3}, lasso[] = {0, 2, 3, 1};
    static const uint16_t loops_apart[] = {1, 0, 3, 2}, borders_apart[] = {0, 1, 2, 3}, loop_apart[] = {0, 1, 3, 2};
    static const uint16_t dumbbell[] = {1, 2, 0, 4, 5, 3}, odd[] = {0, 1, 2}, beyond[] = {0, 2}, equal[] = {0, 0}, equal_apart[] = {0, 1, 3, 3};
    static const uint16_t beyond_apart[] = {0, 1, 2, 65535}, beyond_equal[] = {0, 0, 4, 3};
    static const uint8_t one[] = {1}, zero[] = {0}, zeros[] = {0, 0}, ones[] = {1, 1}, first[] = {1, 0}, middle[] = {0, 1, 0};

    FINDS(border, one);
    FINDS(loop, zero);
    FINDS(interlaced, zeros);
    FINDS(path, ones);
    FINDS(lasso, first);
    FINDS(dumbbell, middle);
    finds(odd, 3, 1, 64, 1, NULL);
    finds(border, 2, 2, 64, 1, NULL);
    finds(border, 2, 0, 64, 1, NULL);
    finds(border, 2, 1, 5, 2, NULL);
    FINDS_NONE(beyond, 3);
    FINDS_NONE(beyond_apart, 3);
    FINDS_NONE(beyond_equal, 3);
    FINDS_NONE(equal, 4);
    FINDS_NONE(equal_apart, 4);
    FINDS_NONE(loops_apart, 21);
    FINDS_NONE(borders_apart, 21);
    FINDS_NONE(loop_apart, 21);
    finds(border, 0, 0, 0, 0, one);
    expect(pmap_marks(NULL, 0, NULL, 0, NULL, 0) == 0, "pmap_marks", "null lists of no entry");
    expect(pmap_marks(NULL, 0, NULL, 2, NULL, 0) == 1, "pmap_marks", "null lists, and two marks");
}

/* ---- by chance ---- */

/* Grown in the plane; half of them then get up to three handles. */
void grown_marks(void)
{
    size_t count, handles, added;
    for (count = small ? 120 : 6000; count > 0; count--) {
        grow(&second, random_below(random_below(4) ? 12 : 41), (unsigned)random_below(9));
        added = 0;
        for (handles = random_below(2) ? 0 : 1 + random_below(3); handles > 0; handles--) added += (size_t)add_handle(&second);
        renumber(&second, &drawing);
        expect(in_plane(&drawing) == (added == 0), "reference", "does not count the areas that the drawing was made with");
        compare_found(&drawing);
    }
}

void scattered_marks(void)
{
    size_t count;
    for (count = small ? 120 : 6000; count > 0; count--) {
        scatter(&drawing, random_below(24), 1 + random_below(8));
        compare_found(&drawing);
    }
}

/* "some two points have no path of borders": two parts or more, each of a few borders. */
void parted_marks(void)
{
    struct lent lent;
    size_t count;
    for (count = small ? 60 : 3000; count > 0; count--) {
        grow(&drawing, 1 + random_below(12), (unsigned)random_below(9));
        do {
            grow(&second, 1 + random_below(6), (unsigned)random_below(9));
            put_beside(&drawing, &second);
        } while (random_below(4) == 0);
        renumber(&drawing, &second);
        lent = lend_drawing(&second);
        compare_marks_status(&lent, &found, 21);
        compare_found(&second);
    }
}

/* ---- as many borders as there may be ---- */

static const struct repeated shapes[][2] = {
    {{"(", MOST_BORDERS}, {")", MOST_BORDERS}},           /* a path */
    {{"()", MOST_BORDERS}, {"", 0}},                      /* a star */
    {{"[]", MOST_BORDERS}, {"", 0}},                      /* loops on one point, side by side */
    {{"[", MOST_BORDERS}, {"]", MOST_BORDERS}},           /* and within one another */
    {{"([", MOST_BORDERS / 2}, {")]", MOST_BORDERS / 2}}, /* a path with every border double */
    {{"()[]", MOST_BORDERS / 2}, {"", 0}},                /* a star with loops between its borders */
};

/* Of these shapes; grown, with a handle and without; by chance; in two parts. */
void large_marks(void)
{
    static char kinds[MOST_ENDS + 1];
    struct card card;
    struct lent lent;
    size_t i, handles;
    for (i = 0; i < sizeof shapes / sizeof *shapes; i++) {
        repeat_kinds(kinds, shapes[i], 2);
        card_of_kinds(&card, kinds);
        unpack(card.bytes, card.length, &second);
        renumber(&second, &drawing);
        compare_found(&drawing);
    }
    for (i = 1; i < 8; i += 2) {
        handles = i / 2 % 2;
        grow(&drawing, MOST_BORDERS - handles, (unsigned)i);
        if (handles > 0) add_handle(&drawing);
        compare_found(&drawing);
        scatter(&drawing, MOST_BORDERS, 4 * i * i);
        compare_found(&drawing);
        grow(&drawing, MOST_BORDERS - i, (unsigned)i);
        grow(&second, i, 4);
        put_beside(&drawing, &second);
        lent = lend_drawing(&drawing);
        compare_marks_status(&lent, &found, 21);
    }
}
