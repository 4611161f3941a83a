/*
 * How much stack each call takes: it is run on a stack of its own, painted beforehand, on cards and drawings of many kinds.
 *
 *     stack
 *
 * One line for each group of calls: the most bytes that were written to, the caller's frame left out. It ends with 1 if a
 * call takes more than include/pmap.h says.
 */
#include <stdio.h>
#include <string.h>
#include <ucontext.h>

#include "calls.h"
#include "cards.h"
#include "pmap.h"

enum { STACK = 1 << 17, PAINT = 0xA5, BORDERS = 2048, AREAS = BORDERS + 1, CALLS = 64 };

static _Alignas(64) unsigned char memory[STACK];
static ucontext_t here, there;

/* What is called, and on what. */
static void (*task)(void);
static library_call *call;
static library_turn *turn;
static struct card card;
static size_t asked, left, areas;
static uint16_t turning[2 * BORDERS], again[2 * BORDERS], work[6 * BORDERS], answers[CALLS], m, n, out;
static uint8_t marks[BORDERS], found[BORDERS], status, gone_round, bytes[PMAP_LONGEST], calls[CALLS], statuses[CALLS];
static uint8_t kinds[AREAS];
static double values[3 * AREAS], factor;
static uint32_t packed;

static void nothing(void) { status = 0; }
static void open_card(void) { status = pmap_open(card.bytes, card.length, &m, &n); }
static void ask_number(void) { status = call(card.bytes, card.length, asked, &out); }
static void ask_turn(void) { status = turn(card.bytes, card.length, asked, &out, &gone_round); }
static void find_factor(void) { status = pmap_factor(card.bytes, card.length, asked, kinds, areas, values, 3 * areas, &factor); }
static void join(void) { status = pmap_joining(card.bytes, card.length, asked, asked, &out); }
static void run_session(void) { status = pmap_session(card.bytes, card.length, asked, calls, CALLS, statuses, CALLS, answers, CALLS, &left); }
static void unpack_card(void) { status = pmap_unpack(card.bytes, card.length, turning, 2 * BORDERS, marks, BORDERS, &m); }
static void find_marks(void) { status = pmap_marks(again, 2 * (size_t)m, found, m, work, 6 * (size_t)m); }
static void pack_drawing(void) { packed = pmap_pack(again, 2 * (size_t)m, marks, m, 0, work, 6 * (size_t)m, bytes, sizeof bytes, &out); }

static void enter(void) { task(); }

/* Bytes of the painted stack that `what` writes to, from its top. */
static size_t used(void (*what)(void))
{
    size_t i = 0;

    memset(memory, PAINT, STACK);
    task = what;
    getcontext(&there);
    there.uc_stack.ss_sp = memory;
    there.uc_stack.ss_size = STACK;
    there.uc_link = &here;
    makecontext(&there, enter, 0);
    swapcontext(&here, &there);
    while (i < STACK && memory[i] == PAINT)
        i++;
    return STACK - i;
}

static size_t base;

static void keep_most(size_t *most, void (*what)(void))
{
    size_t took = used(what) - base;

    if (took > *most)
        *most = took;
}

static int show(const char *group, size_t most)
{
    printf("%-28s %6zu bytes\n", group, most);
    return most > PMAP_STACK;
}

/* A factor in a tariff by chance, and one that is not known; and with a tariff that is refused at its last area. */
static void keep_most_factor(size_t *most)
{
    size_t i;

    for (i = 0; i < 3 * areas; i++) values[i] = 1.0;
    for (i = 0; i < areas; i++) kinds[i] = (uint8_t)random_below(3);
    keep_most(most, find_factor);
    if (asked >= 1 && asked <= areas) kinds[asked - 1] = PMAP_KIND_UNKNOWN;
    keep_most(most, find_factor);
    kinds[areas - 1] = 3;
    keep_most(most, find_factor);
}

/* Area 1 of a card of so many points. */
static void keep_most_of_first(size_t points, unsigned lean, size_t *neighbours, size_t *factors)
{
    random_card(&card, BORDERS, points, lean);
    areas = BORDERS - points + 2;
    call = pmap_neighbours;
    asked = 1;
    keep_most(neighbours, ask_number);
    keep_most_factor(factors);
}

int main(void)
{
    size_t opening = 0, places = 0, points = 0, of_areas = 0, neighbours = 0, factors = 0, joining = 0, sessions = 0, unpacking = 0,
           marking = 0, packing = 0, round, i;
    int over = 0;

    base = used(nothing);
    seed_random(1);
    for (round = 0; round < 200; round++) {
        size_t borders = round < 100 ? random_below(40) : BORDERS - random_below(9);
        random_card(&card, borders, 1 + random_below(borders + 1), (unsigned)random_below(9));
        keep_most(&opening, open_card);
        for (i = 0; i < 6 * OF_PLACE; i++) {
            call = of_place[i % OF_PLACE].library;
            turn = of_place[i % OF_PLACE].turn;
            asked = random_below(2 * borders + 2);
            keep_most(&places, turn != NULL ? ask_turn : ask_number);
        }
        for (i = 0; i < 6 * OF_POINT; i++) {
            call = of_point[i % OF_POINT].library;
            asked = random_below((size_t)n + 2);
            keep_most(&points, ask_number);
            keep_most(&joining, join);
        }
        for (i = 0; i < 6 * OF_AREA; i++) {
            call = of_area[i % OF_AREA].library;
            asked = random_below((size_t)m - n + 4);
            keep_most(call == pmap_neighbours ? &neighbours : &of_areas, ask_number);
        }
        areas = (size_t)m - n + 2;
        keep_most_factor(&factors);
        asked = 1 + random_below(2 * borders + 1);
        for (i = 0; i < CALLS; i++) calls[i] = (uint8_t)random_below(OF_PLACE);
        keep_most(&sessions, run_session);
        calls[CALLS - 1] = OF_PLACE; /* no call */
        keep_most(&sessions, run_session);
        if (round % 20 == 0) {
            keep_most(&unpacking, unpack_card);
            memcpy(again, turning, sizeof again);
            keep_most(&marking, find_marks);
            keep_most(&packing, pack_drawing);
            if (m > 1) { /* two entries exchanged: another drawing, or none that passes all checks */
                i = random_below(2 * (size_t)m);
                again[i] = turning[0];
                again[0] = turning[i];
                keep_most(&marking, find_marks);
                keep_most(&packing, pack_drawing);
            }
        }
    }
    keep_most_of_first(BORDERS + 1, 4, &neighbours, &factors); /* most sides: a tree */
    keep_most_of_first(1, 0, &neighbours, &factors);           /* most neighbours: beside 2,048 loops */
    over |= show("pmap_open", opening);
    over |= show("of a place", places);
    over |= show("of a point", points);
    over |= show("of an area", of_areas);
    over |= show("pmap_neighbours", neighbours);
    over |= show("pmap_factor", factors);
    over |= show("pmap_joining", joining);
    over |= show("pmap_session", sessions);
    over |= show("pmap_unpack", unpacking);
    over |= show("pmap_marks", marking);
    over |= show("pmap_pack", packing);
    return over;
}
