/* Comparing packing, finding marks and unpacking with the reference. */
#include "compare.h"

#include <stdio.h>
#include <string.h>

#include "calls.h"
#include "cards.h"
#include "lending.h"
#include "pmap.h"
#include "tally.h"

/* No list that is lent has more entries. */
enum { MOST_ENTRIES = 6 * MOST_BORDERS + 128 };

static size_t some_more(void)
{
    return random_below(2) ? 0 : 1 + random_below(40);
}

/* "Pack's working list is untouched by 1 to 3. After any other outcome its first 6m entries are 0 and the rest untouched." Finding
   marks "leaves its working list as packing does". */
static void leave_work(uint16_t *work, const struct lent *lent, uint8_t status)
{
    if (status == 0 || status > 3) memset(work, 0, 6 * lent->marks_len * sizeof *work);
}

static void lent_differs(const char *call, const struct lent *lent, const char *what, uint32_t given, uint32_t want)
{
    char detail[400];
    size_t i;
    int at = snprintf(detail, sizeof detail, "%s; gives %08X, wanted %08X; lengths %zu %zu %zu %zu, start %zu, turning", what,
                      (unsigned)given, (unsigned)want, lent->turning_len, lent->marks_len, lent->work_len, lent->out_len, lent->start);
    for (i = 0; i < lent->turning_len && i < 12; i++) at += sprintf(detail + at, " %u", lent->turning[i]);
    at += sprintf(detail + at, ", marks");
    for (i = 0; i < lent->marks_len && i < 6; i++) at += sprintf(detail + at, " %u", lent->marks[i]);
    differs(call, NULL, 0, detail);
}

/* ---- packing ---- */

static struct loan turning_loan, marks_loan, work_loan, out_loan, map_loan;
static struct drawing drawing;
static struct book book;

/* What the working list and the output must hold in the end. */
struct left {
    uint16_t work[MOST_ENTRIES];
    uint8_t out[LONGEST + 128];
    size_t length;
};

static void work_out(struct left *left, const struct lent *lent, uint8_t status)
{
    left->length = OLD;
    if (status == 0) {
        expect(make_book(&drawing, &book), "reference", "the tour of a good drawing does not meet every end");
        left->length = pack(&book, left->out);
    }
    leave_work(left->work, lent, status);
}

/* The status, and with 7 the first crossing above it: "The smaller number is still written first." */
static uint32_t wanted_word(const struct drawing *d, uint8_t status)
{
    struct crossing pair;
    if (status != 7) return status;
    pair = first_crossing(d);
    if (pair.a < pair.b) return 7u | (uint32_t)pair.a << 8 | (uint32_t)pair.b << 20;
    return 7u | (uint32_t)pair.b << 8 | (uint32_t)pair.a << 20;
}

int in_plane(const struct drawing *d)
{
    return count_areas(d) + count_points(d) == d->m + 2;
}

static int agrees_with_areas(const struct drawing *d, uint8_t status)
{
    if (status != 0 && status != 7) return 1;
    return (status == 0) == in_plane(d);
}

size_t compare_pack(const struct lent *lent, uint8_t *map)
{
    static struct left left;
    uint16_t cells[3] = {FENCE, OLD, FENCE}, *work;
    uint8_t status = pack_refusal(lent, &drawing), *out;
    const uint16_t *turning = lend(&turning_loan, lent->turning, 2 * lent->turning_len);
    const uint8_t *marks = lend(&marks_loan, lent->marks, lent->marks_len);
    const char *wrong = NULL;
    uint32_t packed;

    fill(left.work, 2 * lent->work_len);
    fill(left.out, lent->out_len);
    work = lend(&work_loan, left.work, 2 * lent->work_len);
    out = lend(&out_loan, left.out, lent->out_len);
    packed = pmap_pack(turning, lent->turning_len, marks, lent->marks_len, lent->start, work, lent->work_len, out, lent->out_len,
                       &cells[1]);
    work_out(&left, lent, status);
    if (status == 0 && packed == 0) memcpy(map, out, left.length);

    if (PMAP_STATUS(packed) != status) wrong = "another status";
    else if (packed != wanted_word(&drawing, status)) wrong = "another pair than the first crossing, or one beside another status";
    if (!take_back(&turning_loan, lent->turning)) wrong = "the turning list was changed";
    if (!take_back(&marks_loan, lent->marks)) wrong = "the marks were changed";
    if (!take_back(&work_loan, left.work)) wrong = "the working list is not as it must be";
    if (!take_back(&out_loan, left.out)) wrong = "the output is not as it must be";
    if (cells[0] != FENCE || cells[1] != left.length || cells[2] != FENCE) wrong = "the length is not as it must be";
    if (!agrees_with_areas(&drawing, status)) wrong = "the reference does not agree with the number of areas";
    compared_one();
    if (wrong == NULL) seen_once(status);
    else lent_differs("pmap_pack", lent, wrong, packed, wanted_word(&drawing, status));
    return status == 0 && wrong == NULL ? left.length : 0;
}

size_t compare_pack_status(const struct lent *lent, uint8_t *map, uint8_t status)
{
    expect(pack_refusal(lent, &drawing) == status, "reference", "gives another status than the drawing was made for");
    return compare_pack(lent, map);
}

struct lent lend_drawing(const struct drawing *d)
{
    struct lent lent = {d->turning, 2 * d->m, d->marks, d->m, d->start, 0, 0};
    lent.work_len = 6 * d->m + some_more();
    lent.out_len = LONGEST + some_more();
    return lent;
}

/* ---- finding marks ---- */

int compare_marks(const struct lent *lent, struct drawing *found)
{
    static uint16_t work_left[MOST_ENTRIES];
    uint8_t status = marks_refusal(lent, found), given, *marks;
    const uint16_t *turning = lend_list(&turning_loan, lent->turning, 2 * lent->turning_len);
    const char *wrong = NULL;
    uint16_t *work;

    fill(work_left, 2 * lent->work_len);
    marks = lend_list(&marks_loan, lent->marks, lent->marks_len);
    work = lend_list(&work_loan, work_left, 2 * lent->work_len);
    given = pmap_marks(turning, lent->turning_len, marks, lent->marks_len, work, lent->work_len);
    leave_work(work_left, lent, status);
    if (status == 0 && given == 0 && found->m > 0) memcpy(found->marks, marks, found->m);

    if (given != status) wrong = "another status";
    else if (status == 0 && !marks_a_tree(found)) wrong = "the marks are not those of a spanning tree";
    if (!take_back(&turning_loan, lent->turning)) wrong = "the turning list was changed";
    if (!take_back(&marks_loan, status == 0 ? found->marks : lent->marks)) wrong = "the marks are not as they must be";
    if (!take_back(&work_loan, work_left)) wrong = "the working list is not as it must be";
    compared_one();
    if (wrong == NULL) seen_once(status);
    else lent_differs("pmap_marks", lent, wrong, given, status);
    return status == 0 && wrong == NULL;
}

int compare_marks_status(const struct lent *lent, struct drawing *found, uint8_t status)
{
    expect(marks_refusal(lent, found) == status, "reference", "gives another status than the drawing was made for");
    return compare_marks(lent, found);
}

/* ---- unpacking ---- */

static uint8_t unpack_status(const uint8_t *map, size_t length, size_t turning_len, size_t marks_len, struct drawing *d)
{
    uint8_t status = unpack(map, length, d);
    if (status == 0 && (turning_len < 2 * d->m || marks_len < d->m)) return 16;
    return status;
}

/* "An accepted unpack writes the first 2m turning entries and m marks only." The lists hold what they must in the end. */
static void lay(const struct drawing *d, uint16_t *turning, uint8_t *marks)
{
    memcpy(turning, d->turning, 2 * d->m * sizeof *turning);
    memcpy(marks, d->marks, d->m);
}

void compare_unpack(const uint8_t *bytes, size_t length, size_t turning_len, size_t marks_len, const struct drawing *want)
{
    static struct drawing unpacked;
    static uint16_t turning_left[MOST_ENTRIES];
    static uint8_t marks_left[MOST_ENTRIES];
    uint16_t cells[3] = {FENCE, OLD, FENCE}, *turning;
    uint8_t status = unpack_status(bytes, length, turning_len, marks_len, &unpacked), given, *marks, *map;
    const char *wrong = NULL;
    char detail[200];

    if (want == NULL) want = &unpacked;
    if (status == 0) expect(same_drawing(&unpacked, want), "reference", "unpacks to another drawing than the tour gives");
    fill(turning_left, 2 * turning_len);
    fill(marks_left, marks_len);
    map = lend(&map_loan, bytes, length);
    turning = lend(&turning_loan, turning_left, 2 * turning_len);
    marks = lend(&marks_loan, marks_left, marks_len);
    given = pmap_unpack(map, length, turning, turning_len, marks, marks_len, &cells[1]);
    if (status == 0) lay(want, turning_left, marks_left);

    if (given != status) wrong = "another status";
    if (!take_back(&map_loan, bytes)) wrong = "the map was changed";
    if (!take_back(&turning_loan, turning_left)) wrong = "the turning list is not as it must be";
    if (!take_back(&marks_loan, marks_left)) wrong = "the marks are not as they must be";
    if (cells[0] != FENCE || cells[1] != (status == 0 ? want->m : OLD) || cells[2] != FENCE) wrong = "m is not as it must be";
    compared_one();
    if (wrong == NULL) {
        seen_once(status);
        return;
    }
    snprintf(detail, sizeof detail, "%s; gives %u, wanted %u; lists of %zu and %zu", wrong, given, status, turning_len, marks_len);
    differs("pmap_unpack", bytes, length, detail);
}

/* ---- there and back ---- */

static void compare_again(const struct drawing *d, const uint8_t *bytes, size_t length)
{
    uint8_t again[LONGEST];
    struct lent lent = lend_drawing(d);
    compared_one();
    if (compare_pack(&lent, again) != length || memcmp(again, bytes, length) != 0)
        differs("pmap_pack", bytes, length, "unpacked and packed again, the bytes differ");
}

size_t compare_round(const struct drawing *d, uint8_t *map)
{
    static struct drawing renumbered;
    struct lent lent = lend_drawing(d);
    size_t length = compare_pack_status(&lent, map, 0);
    if (length == 0) return 0;
    renumber_by_tour(&book, &renumbered);
    compare_unpack(map, length, 2 * d->m + some_more(), d->m + some_more(), &renumbered);
    compare_again(&renumbered, map, length);
    return length;
}

void compare_back(const uint8_t *bytes, size_t length)
{
    static struct drawing unpacked;
    uint8_t status = unpack(bytes, length, &unpacked);
    expect(status == 0, "reference", "does not open the bytes");
    if (status != 0) return;
    compare_unpack(bytes, length, 2 * unpacked.m + some_more(), unpacked.m + some_more(), NULL);
    compare_again(&unpacked, bytes, length);
}

void compare_opening(const uint8_t *bytes, size_t length)
{
    size_t m = length < AT_N ? 0 : field_at(bytes, AT_M), less;
    if (m > MOST_BORDERS) m = MOST_BORDERS;
    less = m > 0;
    compare_unpack(bytes, length, 2 * m, m, NULL);
    compare_unpack(bytes, length, 2 * m - less, m, NULL);
    compare_unpack(bytes, length, 2 * m, m - less, NULL);
    compare_unpack(bytes, length, 2 * m - less, m - less, NULL);
    compare_unpack(bytes, length, 2 * m + 1 + some_more(), m + 1 + some_more(), NULL);
}
