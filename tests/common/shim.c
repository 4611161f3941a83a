/*
 * Opening, moves, numbers and sessions on top of the reference, to test the test programs: with FAULT 0 in the environment
 * nothing may differ, and with each other FAULT, a mistake that a library could make, something must.
 */
#include "shim.h"

#include <stdlib.h>
#include <string.h>

#include "damage.h"
#include "pmap.h"
#include "reference.h"

int planted_fault(void)
{
    static int number = -1;
    if (number < 0) number = getenv("FAULT") == NULL ? 0 : atoi(getenv("FAULT"));
    return number;
}

static struct drawing drawing;
static struct book book;

/* What opening gives for the card with this count of areas. */
static uint8_t with_count(const uint8_t *map, size_t map_len, size_t count)
{
    static uint8_t copy[MOST_BYTES];
    memcpy(copy, map, map_len);
    put_field(copy, AT_AREAS, count);
    return unpack(copy, map_len, &drawing);
}

/* Opening with a mistake about the count of areas. */
static uint8_t changed_count(const uint8_t *map, size_t map_len, uint8_t status)
{
    size_t right, count;
    if (FAULT == 20 && status != 0 && unpack_before(map, map_len, &drawing) == 0) return 0; /* takes cards made before */
    if (map_len < HEADER || map_len > MOST_BYTES) return status;
    right = field_at(map, AT_M) + 2 - field_at(map, AT_N);
    count = field_at(map, AT_AREAS);
    if (FAULT == 15 && status == 20) return with_count(map, map_len, right);                               /* does not compare it */
    if (FAULT == 16 && status == 20 && with_count(map, map_len, right) == 9) return 9;                     /* compares it after the length */
    if (FAULT == 17 && status != 8) return with_count(map, map_len, count % 256 * 256 + count / 256);      /* reads it high byte first */
    if (FAULT == 18 && status == 20 && count % 256 == right % 256) return with_count(map, map_len, right); /* compares its low byte */
    if (FAULT == 19 && status == 8 && count != right) return 20;                                           /* compares it before 8 */
    return status;
}

static uint8_t open_card(const uint8_t *map, size_t map_len)
{
    uint8_t status = changed_count(map, map_len, unpack(map, map_len, &drawing));
    if (FAULT == 11 && map_len > 0) status |= ((const volatile uint8_t *)map)[map_len] & 0; /* reads past the end */
    if (FAULT == 1 && status == 12) status = 11; /* gives another number */
    if (status == 0) make_book(&drawing, &book);
    return status;
}

static uint8_t give(struct reply r, uint16_t *out)
{
    if (r.status != 0) {
        if (FAULT == 2) *out = 0; /* writes its cell on a refusal */
        return r.status;
    }
    *out = (uint16_t)r.value;
    if (FAULT == 3) out[1] = 0; /* writes beside its cell */
    return 0;
}

static uint8_t give_turn(struct reply r, uint16_t *out, uint8_t *gone_round)
{
    if (r.status == 0) {
        if (FAULT == 321) r.value = session_entry(r);     /* the sign in the place too */
        if (FAULT != 322 || r.sign) *gone_round = r.sign; /* does not write that there is none */
        if (FAULT == 323 && r.sign) *gone_round = 0x80;   /* another number than 1 */
        if (FAULT == 324) gone_round[1] = 0;              /* writes beside its cell */
    } else if (FAULT == 325) {
        *gone_round = 0; /* writes its cell on a refusal */
    }
    return give(r, out);
}

static size_t number(size_t k)
{
    return FAULT == 4 ? k % 65536 : k; /* cuts numbers to 16 bits */
}

#define CALL(name)                                                                                  \
    uint8_t pmap_##name(const uint8_t *map, size_t map_len, size_t k, uint16_t *out)                \
    {                                                                                               \
        uint8_t status = open_card(map, map_len);                                                   \
        return status != 0 ? status : give(changed_##name(book_##name(&book, number(k)), k), out);  \
    }

#define TURN(name)                                                                                                  \
    uint8_t pmap_##name(const uint8_t *map, size_t map_len, size_t k, uint16_t *out, uint8_t *gone_round)           \
    {                                                                                                               \
        uint8_t status = open_card(map, map_len);                                                                   \
        if (FAULT == 326) *gone_round = 0; /* writes before it has checked */                                       \
        return status != 0 ? status : give_turn(changed_##name(book_##name(&book, number(k)), k), out, gone_round); \
    }

static struct reply changed_cross(struct reply r, size_t k)
{
    static size_t before;
    if (FAULT == 5 && r.status == 0) r.value = k; /* stands still */
    if (FAULT == 12 && r.status == 0 && k == before) r.value = k; /* stands still from the second step on */
    before = r.value;
    return r;
}

static struct reply changed_along(struct reply r, size_t k)
{
    (void)k;
    if (FAULT == 6 && r.status == 0 && r.value == 1) r.value = 2 * drawing.m + 1; /* steps off the end */
    return r;
}

static struct reply changed_turn(struct reply r, size_t k)
{
    struct reply across = book_cross(&book, k);
    if (FAULT == 7 && r.sign) r.value = 1;                                                          /* place 1 for the point's first */
    if (FAULT == 13 && r.status == 0 && across.value == 2 * drawing.m) r.value = 2 * drawing.m + 1; /* document 002's formula */
    if (FAULT == 14 && r.status == 0 && across.value > k) r.value = k + 1;                          /* the next place, also at a ( */
    if (FAULT == 302 && r.sign) r.value = 0;                                                        /* 0 as before request 8/14 */
    if (FAULT == 303) r.sign = 0;                                                                   /* no sign */
    if (FAULT == 304 && r.value != 1) r.sign = 0;                                                   /* the sign about point 1 only */
    if (FAULT == 305 && r.value == k) r.sign = 0;                                                   /* none where it stays */
    if (FAULT == 306 && r.status == 0) r.sign = book_turn_back(&book, k).sign;                      /* the sign at the first place */
    if (FAULT == 307 && r.status == 0) r.sign = 1;                                                  /* the sign at every place */
    return r;
}

static struct reply changed_area(struct reply r, size_t k)
{
    struct reply across = book_cross(&book, k);
    if (FAULT == 8 && across.status == 0 && across.value > k) r = book_area(&book, across.value); /* the area after a [ */
    return r;
}

/* Whether a side counts: the area across it was met before or not, the side before has `last` across it. */
static int counts(size_t area, size_t across, size_t last, int met)
{
    if (FAULT == 151) return !met;                                     /* the area itself, where it is across */
    if (FAULT == 152) return 1;                                        /* each side: the rule before request 3/14 */
    if (FAULT == 153) return across != area;                           /* each border to another area */
    if (FAULT == 154) return across != area && across != last;         /* an area again after another one */
    if (FAULT == 155) return across != area && !met && across != 1;    /* area 1 never */
    if (FAULT == 156) return across != area && !met && across != 2049; /* the last area of 2,048 loops never */
    return across != area && !met;
}

/* Along the walk, and not as the book counts. */
static struct reply changed_neighbours(struct reply r, size_t k)
{
    uint8_t met[MOST_BORDERS + 2] = {0};
    size_t area = number(k), place, left, last = 0;
    if (r.status != 0) return r;
    place = book.area_first[area];
    r.value = 0;
    for (left = book.sides[area]; left > 0; left--) {
        size_t across = book_area(&book, book_cross(&book, place).value).value;
        if (FAULT == 157) across = area; /* the area of the side for the one across it */
        r.value += (size_t)counts(area, across, last, met[across]);
        met[across] = 1;
        last = across;
        place = book_along(&book, place).value;
    }
    return r;
}

static struct reply changed_turn_back(struct reply r, size_t k)
{
    if (FAULT == 311 && r.sign) r.value = 2 * drawing.m;                             /* place 2m for the point's last */
    if (FAULT == 312 && r.sign) r.value = 0;                                         /* 0 as before request 8/14 */
    if (FAULT == 313) r.sign = 0;                                                    /* no sign */
    if (FAULT == 314 && k != 1) r.sign = 0;                                          /* the sign about point 1 only */
    if (FAULT == 315 && r.value == k) r.sign = 0;                                    /* none where it stays */
    if (FAULT == 316 && r.status == 0) r.sign = book_turn_back(&book, r.value).sign; /* the sign where it comes to the first place */
    if (FAULT == 317 && r.sign) r.value = k;                                         /* stays at the first place */
    return r;
}

#define changed_point(r, k) (r)
#define changed_point_first(r, k) (r)
#define changed_degree(r, k) (r)
#define changed_area_first(r, k) (r)
#define changed_sides(r, k) (r)

CALL(cross)
TURN(turn)
TURN(turn_back)
CALL(along)
CALL(point)
CALL(area)
CALL(point_first)
CALL(degree)
CALL(area_first)
CALL(sides)
CALL(neighbours)

uint8_t pmap_open(const uint8_t *map, size_t map_len, uint16_t *m, uint16_t *n)
{
    uint8_t status = open_card(map, map_len);
    if (status == 0 || FAULT == 9) *m = (uint16_t)drawing.m; /* writes before it has checked */
    if (status == 0) *n = (uint16_t)book.n;
    return status;
}

uint8_t pmap_joining(const uint8_t *map, size_t map_len, size_t u, size_t v, uint16_t *out)
{
    uint8_t status = open_card(map, map_len);
    if (status != 0) return status;
    if (FAULT == 10 && book_joining(&book, u, v).status == 0) { /* looks at the first place only */
        struct reply r = book_joining(&book, u, v);
        if (r.value != book.point_first[u]) r.value = 0;
        return give(r, out);
    }
    return give(book_joining(&book, number(u), number(v)), out);
}

/* ---- sessions ---- */

static uint8_t session_status(const struct asked *s, uint8_t opening)
{
    struct asked changed = *s;
    uint8_t last = s->calls_len > 0 ? s->calls[s->calls_len - 1] : 0, own;
    if (FAULT == 111) changed.statuses_len++; /* takes a list of statuses that is one short */
    if (FAULT == 112) changed.answers_len++;  /* takes a list of answers that is one short */
    own = session_refusal(&changed);
    if (FAULT == 113 && own == 2) return 2;                                   /* tests 2 before it opens the map */
    if (FAULT == 114 && own == 255) return 255;                               /* tests 255 before it opens the map */
    if (FAULT == 115 && own == 2 && last > 5) own = 255;                      /* tests 255 before 2 */
    if (FAULT == 116 && own == 255 && last <= 5) own = 0;                     /* looks at the last code only */
    if (FAULT == 117 && own == 255 && last == 6) own = 0;                     /* takes 6 at the end for a call */
    if (FAULT == 118 && own == 0 && s->calls_len == 0) own = 2;               /* declines a list of no calls */
    if (FAULT == 119 && own == 0 && s->statuses_len == s->calls_len) own = 2; /* wants more room than it needs */
    if (FAULT == 120 && own == 0 && s->calls_len > 4096) own = 2;             /* takes 4,096 calls and no more */
    if (opening != 0) return opening;
    if (FAULT == 121 && own == 0 && book_point(&book, s->first).status != 0) own = 13; /* declines a first number off the map */
    return own;
}

/* Call i, and the place after it. */
static struct reply take_step(uint8_t code, size_t i, size_t first, size_t *at)
{
    size_t before = *at;
    struct reply r;
    if (FAULT == 122) *at = first;                  /* asks every call of the first number */
    if (FAULT == 123 && i % 4096 == 0) *at = first; /* begins again after 4,096 calls */
    if (FAULT == 124 && code == 5) code = 4;        /* the point for the area */
    r = book_step(&book, code, at);
    if (FAULT == 125 && r.status == 0 && code == 4) *at = r.value; /* moves to the number of the point */
    if (FAULT == 126 && r.sign) *at = before;                      /* stays where a turn has gone round */
    if (FAULT == 127 && r.status != 0) *at = 0;                    /* goes to 0 where a call is refused */
    if (FAULT == 128 && r.status != 0) r.value = before;           /* the place for the answer of a refused call */
    if (FAULT == 331 && r.sign) *at = session_entry(r);            /* hands the sign on with the place */
    if (FAULT == 332 && r.sign) *at = 0;                           /* stops there, as before request 8/14 */
    if (FAULT == 333) r.sign = 0;                                  /* no sign */
    if (FAULT == 334 && code == 2) r.sign = 0;                     /* the sign of turns, and not of turns back */
    if (FAULT == 335 && code == 3) r.sign = *at <= before;         /* the sign of a step along, too */
    if (FAULT == 336 && i >= 4096) r.sign = 0;                     /* the sign of the first 4,096 calls only */
    return r;
}

/* What it writes though it declines, or what is not its to write. */
static void write_wrongly(const struct asked *s, uint8_t status, uint8_t *statuses, uint16_t *answers, size_t *place)
{
    if (FAULT == 131 && status != 0) *place = 0;                                                   /* the place on a refusal */
    if (FAULT == 132 && status == 255) statuses[0] = 0;                                            /* before it has seen all codes */
    if (FAULT == 133 && status == 2 && s->answers_len > 0) answers[0] = 0;                         /* before it has tested the room */
    if (FAULT == 134 && status == 0 && s->calls_len > 0) ((uint8_t *)s->calls)[0] ^= 1;            /* the calls */
    if (FAULT == 135 && status == 0 && s->statuses_len > s->calls_len) statuses[s->calls_len] = 0; /* a status beyond the calls */
    if (FAULT == 136 && status == 0 && s->answers_len > s->calls_len) answers[s->calls_len] = 0;   /* an answer beyond the calls */
    if (FAULT == 137 && status == 0 && s->statuses_len > 0) statuses[s->statuses_len] = 0;         /* beyond the statuses */
    if (FAULT == 138 && status == 0 && s->answers_len > 0) answers[s->answers_len] = 0;            /* beyond the answers */
    if (FAULT == 139 && status == 0) place[1] = 0;                                                 /* beside its cell */
}

uint8_t pmap_session(const uint8_t *map, size_t map_len, size_t first, const uint8_t *calls, size_t calls_len,
                     uint8_t *statuses, size_t statuses_len, uint16_t *answers, size_t answers_len, size_t *place)
{
    struct asked asked = {number(first), calls, calls_len, statuses_len, answers_len};
    uint8_t status = session_status(&asked, open_card(map, map_len));
    size_t at = asked.first, i;
    if (FAULT == 141 && calls_len > 0) status |= ((const volatile uint8_t *)calls)[calls_len] & 0; /* reads past the calls */
    write_wrongly(&asked, status, statuses, answers, place);
    if (status != 0) return status;
    for (i = 0; i < calls_len; i++) {
        struct reply r = take_step(calls[i], i, asked.first, &at);
        statuses[i] = r.status;
        if (FAULT != 142 || r.status == 0) answers[i] = session_entry(r);      /* leaves the answer of a refused call as it was */
        if (FAULT == 146 && r.sign) answers[i] = (uint16_t)(r.value + 0x4000); /* the sign in another bit */
    }
    if (FAULT == 143) at %= 65536;                                                           /* the place in 16 bits */
    if (FAULT == 144) at = asked.first;                                                      /* the first number for the place */
    if (FAULT == 147 && calls_len > 0 && answers[calls_len - 1] >= SIGN_BIT) at += SIGN_BIT; /* the sign in the place left */
    if (FAULT != 145) *place = at;                                                           /* does not give the place */
    return 0;
}
