/* What is wrong with a drawing or with a card, and unpacking. */
#include "reference.h"

#include <string.h>

size_t other(size_t h)
{
    return h % 2 == 0 ? h + 1 : h - 1;
}

int marked(const struct drawing *d, size_t h)
{
    return d->marks[h / 2] == 1;
}

size_t tour_after(const struct drawing *d, size_t h)
{
    return d->turning[marked(d, h) ? other(h) : h];
}

/* ---- "Numbers returned when a call declines", 1 to 7 ---- */

static int entries_in_range(const struct drawing *d)
{
    size_t h;
    for (h = 0; h < 2 * d->m; h++)
        if (d->turning[h] >= 2 * d->m) return 0;
    return 1;
}

static int marks_in_range(const struct drawing *d)
{
    size_t e;
    for (e = 0; e < d->m; e++)
        if (d->marks[e] > 1) return 0;
    return 1;
}

static int start_in_range(const struct drawing *d)
{
    return d->m == 0 ? d->start == 0 : d->start < 2 * d->m;
}

static int entries_differ(const struct drawing *d)
{
    uint8_t seen[MOST_ENDS] = {0};
    size_t h;
    for (h = 0; h < 2 * d->m; h++) {
        if (seen[d->turning[h]]) return 0;
        seen[d->turning[h]] = 1;
    }
    return 1;
}

/* The cycles of the turning list, or of area walks: 1 where m = 0. */
static size_t count_cycles(const struct drawing *d, int areas)
{
    uint8_t seen[MOST_ENDS] = {0};
    size_t h, g, count = 0;
    if (d->m == 0) return 1;
    for (h = 0; h < 2 * d->m; h++) {
        if (seen[h]) continue;
        count++;
        for (g = h; !seen[g]; g = d->turning[areas ? other(g) : g]) seen[g] = 1;
    }
    return count;
}

size_t count_points(const struct drawing *d)
{
    return count_cycles(d, 0);
}

size_t count_areas(const struct drawing *d)
{
    return count_cycles(d, 1);
}

/* ---- 5 and 21: ends are merged along turns and borders, and one class must be left ---- */

static size_t class_of(size_t *parent, size_t h)
{
    while (parent[h] != h) h = parent[h] = parent[parent[h]];
    return h;
}

/* Gives 1 if there were two classes. */
static size_t merge(size_t *parent, size_t g, size_t h)
{
    size_t a = class_of(parent, g), b = class_of(parent, h);
    parent[a] = b;
    return a != b;
}

/* Whether all borders, or the marked ones alone, join all points. */
static int join_all(const struct drawing *d, int marked_only)
{
    size_t parent[MOST_ENDS], h, classes = 2 * d->m;
    for (h = 0; h < 2 * d->m; h++) parent[h] = h;
    for (h = 0; h < 2 * d->m; h++) {
        classes -= merge(parent, h, d->turning[h]);
        if (!marked_only || marked(d, h)) classes -= merge(parent, h, other(h));
    }
    return classes <= 1;
}

int marks_join(const struct drawing *d)
{
    return join_all(d, 1);
}

int borders_join(const struct drawing *d)
{
    return join_all(d, 0);
}

size_t count_marks(const struct drawing *d)
{
    size_t e, marks = 0;
    for (e = 0; e < d->m; e++) marks += d->marks[e];
    return marks;
}

int marks_a_tree(const struct drawing *d)
{
    return marks_in_range(d) && count_marks(d) == count_points(d) - 1 && marks_join(d);
}

/* ---- 7: all pairs ---- */

void find_places(const struct drawing *d, struct places *of)
{
    size_t i, h = d->start;
    for (i = 0; i < d->m; i++) of[i].first = of[i].second = 0;
    for (i = 1; i <= 2 * d->m; i++) {
        struct places *border = &of[h / 2];
        if (border->first == 0) border->first = i;
        else border->second = i;
        h = tour_after(d, h);
    }
}

int in_turns(struct places a, struct places b)
{
    return a.first < b.first && b.first < a.second && a.second < b.second;
}

/* "whose second a has the lowest place, and among those the one whose first b has the lowest place" */
static int comes_before(const struct places *of, struct crossing x, struct crossing y)
{
    if (of[x.a].second != of[y.a].second) return of[x.a].second < of[y.a].second;
    return of[x.b].first < of[y.b].first;
}

struct crossing first_crossing(const struct drawing *d)
{
    struct places of[MOST_BORDERS];
    struct crossing best = {0, 0}, x;
    find_places(d, of);
    for (x.a = 0; x.a < d->m; x.a++)
        for (x.b = 0; x.b < d->m; x.b++) {
            if (d->marks[x.a] || d->marks[x.b] || !in_turns(of[x.a], of[x.b])) continue;
            if (best.a == best.b || comes_before(of, x, best)) best = x;
        }
    return best;
}

uint8_t drawing_refusal(const struct drawing *d)
{
    struct crossing pair;
    if (!entries_in_range(d) || !marks_in_range(d) || !start_in_range(d)) return 3;
    if (!entries_differ(d)) return 4;
    if (!marks_join(d)) return 5;
    if (count_marks(d) > count_points(d) - 1) return 6;
    pair = first_crossing(d);
    return pair.a != pair.b ? 7 : 0;
}

static int lengths_fit(const struct lent *lent)
{
    return lent->turning_len % 2 == 0 && lent->turning_len <= 4096 && lent->marks_len == lent->turning_len / 2;
}

static void lay_out(const struct lent *lent, struct drawing *d)
{
    size_t i;
    d->m = lent->marks_len;
    d->start = lent->start;
    for (i = 0; i < lent->turning_len; i++) d->turning[i] = lent->turning[i];
    for (i = 0; i < lent->marks_len; i++) d->marks[i] = lent->marks[i];
}

uint8_t pack_refusal(const struct lent *lent, struct drawing *d)
{
    if (!lengths_fit(lent)) return 1;
    if (lent->work_len < 6 * lent->marks_len || lent->out_len < LONGEST) return 2;
    lay_out(lent, d);
    return drawing_refusal(d);
}

uint8_t marks_refusal(const struct lent *lent, struct drawing *d)
{
    if (!lengths_fit(lent)) return 1;
    if (lent->work_len < 6 * lent->marks_len) return 2;
    lay_out(lent, d);
    if (!entries_in_range(d)) return 3;
    if (!entries_differ(d)) return 4;
    return borders_join(d) ? 0 : 21;
}

/* ---- 8, 20, 9 to 12, and unpacking ---- */

size_t field_at(const uint8_t *map, size_t at)
{
    return map[at] + 256u * map[at + 1];
}

void put_field(uint8_t *map, size_t at, size_t number)
{
    map[at] = (uint8_t)(number % 256);
    map[at + 1] = (uint8_t)(number / 256);
}

static int bit_of(const uint8_t *string, size_t i)
{
    return string[i / 8] >> i % 8 & 1;
}

size_t bytes_of(size_t bits)
{
    return bits / 8 + (bits % 8 != 0);
}

static int unused_is_zero(const uint8_t *string, size_t bits)
{
    size_t i;
    for (i = bits; i < 8 * bytes_of(bits); i++)
        if (bit_of(string, i)) return 0;
    return 1;
}

static int balanced(const uint8_t *string, size_t bits)
{
    size_t i, open = 0;
    for (i = 0; i < bits; i++) {
        if (!bit_of(string, i)) open++;
        else if (open == 0) return 0;
        else open--;
    }
    return open == 0;
}

/*
 * "Unpacking numbers borders by their first places. The first place is the even end, the start is 0." A second place
 * belongs to the border of its string that was begun last and has none yet. The tour then gives the turning list.
 */
static void draw(struct drawing *d, size_t m, const uint8_t *a, const uint8_t *b, const uint8_t *b_star)
{
    static size_t end_at[MOST_ENDS], begun[2][MOST_BORDERS];
    size_t depth[2] = {0, 0}, read[2] = {0, 0}, borders = 0, i;

    d->m = m;
    d->start = 0;
    for (i = 0; i < 2 * m; i++) {
        int kind = bit_of(a, i);
        if (bit_of(kind ? b : b_star, read[kind]++) == 0) {
            d->marks[borders] = (uint8_t)kind;
            begun[kind][depth[kind]++] = borders;
            end_at[i] = 2 * borders;
            borders++;
        } else {
            end_at[i] = 2 * begun[kind][--depth[kind]] + 1;
        }
    }
    for (i = 0; i < 2 * m; i++) {
        size_t h = end_at[i], next = end_at[i + 1 < 2 * m ? i + 1 : 0];
        d->turning[marked(d, h) ? other(h) : h] = (uint16_t)next;
    }
}

int same_drawing(const struct drawing *d, const struct drawing *other)
{
    return d->m == other->m && d->start == other->start && memcmp(d->marks, other->marks, d->m) == 0
           && memcmp(d->turning, other->turning, 2 * d->m * sizeof *d->turning) == 0;
}

size_t strings_length(size_t m, size_t n)
{
    return bytes_of(2 * m) + bytes_of(2 * n - 2) + bytes_of(2 * (m + 1 - n));
}

/* "m over 2,048, or n not 1 to m+1" */
static int numbers_fit(const uint8_t *map)
{
    size_t m = field_at(map, AT_M), n = field_at(map, AT_N);
    return m <= MOST_BORDERS && n >= 1 && n <= m + 1;
}

/* 9 to 12 of a card whose strings begin at byte `start`. */
static uint8_t read_strings(const uint8_t *map, size_t length, size_t start, struct drawing *d)
{
    size_t m = field_at(map, AT_M), n = field_at(map, AT_N), bits_a = 2 * m, bits_b = 2 * n - 2, bits_b_star = 2 * (m + 1 - n);
    size_t i, ones = 0;
    const uint8_t *a, *b, *b_star;

    if (length != start + strings_length(m, n)) return 9;
    a = map + start;
    b = a + bytes_of(bits_a);
    b_star = b + bytes_of(bits_b);
    if (!unused_is_zero(a, bits_a) || !unused_is_zero(b, bits_b) || !unused_is_zero(b_star, bits_b_star)) return 10;
    for (i = 0; i < bits_a; i++) ones += (size_t)bit_of(a, i);
    if (ones != bits_b) return 11;
    if (!balanced(b, bits_b) || !balanced(b_star, bits_b_star)) return 12;
    draw(d, m, a, b, b_star);
    return 0;
}

uint8_t unpack(const uint8_t *map, size_t length, struct drawing *d)
{
    if (length < HEADER || !numbers_fit(map)) return 8;
    if (field_at(map, AT_AREAS) != field_at(map, AT_M) + 2 - field_at(map, AT_N)) return 20;
    return read_strings(map, length, HEADER, d);
}

uint8_t unpack_before(const uint8_t *map, size_t length, struct drawing *d)
{
    if (length < AT_AREAS || !numbers_fit(map)) return 8;
    return read_strings(map, length, AT_AREAS, d);
}
