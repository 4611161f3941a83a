/* The layout of a schedule, for whoever has the sides and the first place of each area. It is in a header so that a version that
   finds them quickly doesn't pay for a call for each line. */
#ifndef PAGES_H
#define PAGES_H

#include <stddef.h>
#include <stdint.h>
#include <string.h>

/* The longest schedule: 2,049 areas on 41 pages, each with a heading; 40 empty lines; the total. */
enum { PER_PAGE = 50, SCHEDULE_ROOM = 2049 * 20 + 41 * 20 + 40 + 13 };

struct pages {
    uint8_t *out, *at;
    size_t areas, sum;
};

static inline struct pages begin_pages(uint8_t *out)
{
    struct pages p = { out, out, 0, 0 };

    return p;
}

static inline void put(struct pages *p, const char *text, size_t length)
{
    memcpy(p->at, text, length);
    p->at += length;
}

/* Right-aligned in 5 columns. */
static inline void put_column(struct pages *p, size_t number)
{
    size_t i = 5;

    memcpy(p->at, "     ", 5);
    do
        p->at[--i] = (uint8_t)('0' + number % 10);
    while ((number /= 10) != 0);
    p->at += 5;
}

/* The next area. */
static inline void put_area(struct pages *p, size_t sides, size_t first)
{
    if (p->areas % PER_PAGE == 0) {
        if (p->areas != 0)
            put(p, "\n", 1);
        put(p, " area  sides  first\n", 20);
    }
    put_column(p, ++p->areas);
    put(p, "  ", 2);
    put_column(p, sides);
    put(p, "  ", 2);
    put_column(p, first);
    put(p, "\n", 1);
    p->sum += sides;
}

/* The last line. Gives the length of the whole. */
static inline size_t end_pages(struct pages *p)
{
    put(p, "total  ", 7);
    put_column(p, p->sum);
    put(p, "\n", 1);
    return (size_t)(p->at - p->out);
}

/* The line of a refusal of opening. Gives its length. */
static inline size_t put_refusal(uint8_t *out, uint8_t status)
{
    struct pages p = begin_pages(out);

    put(&p, "refused ", 8);
    if (status >= 10)
        *p.at++ = (uint8_t)('0' + status / 10);
    *p.at++ = (uint8_t)('0' + status % 10);
    put(&p, "\n", 1);
    return (size_t)(p.at - p.out);
}

#endif
