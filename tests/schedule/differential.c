/*
 * Compares a program with the independent account, byte for byte, on cards of every size, on damaged ones and on other bytes.
 *
 *     differential PROGRAM FOLDER [small]
 *
 * FOLDER is for the inputs. Its last line is 'N passed, M failed'; with `small` it tries fewer of them.
 */
#include <stdio.h>
#include <string.h>

#include "cards.h"
#include "damage.h"
#include "examples.h"
#include "program.h"

#define COUNT(list) (sizeof(list) / sizeof *(list))

static const char *words; /* what is tried now */
static struct card card;
static unsigned long times[256]; /* by the refusal, or 0 */

static void try_input(int slowly)
{
    static struct drawing d;
    times[unpack(input.at, input.length, &d)]++;
    try(words, slowly);
}

/* Some inputs come slowly. */
static void try_these(const uint8_t *bytes, size_t length)
{
    input.length = 0;
    add_bytes(&input, bytes, length);
    try_input(random_below(100) == 0);
}

static void try_random_card(size_t m, size_t n, unsigned lean)
{
    random_card(&card, m, n, lean);
    try_these(card.bytes, card.length);
}

/* Mostly few borders, and any number of points. */
static void try_any_card(void)
{
    static const size_t sizes[] = {1, 2, 3, 4, 6, 9, 12, 40, 120, 300};
    size_t m = random_below(50) == 0 ? random_below(MOST_BORDERS + 1) : random_below(sizes[random_below(COUNT(sizes))] + 1);
    try_random_card(m, 1 + random_below(m + 1), (unsigned)random_below(9));
}

/* ---- cards that open ---- */

static void try_given(void)
{
    words = "document 01's cards";
    try_these(CARD(empty));
    try_these(CARD(stub));
    try_these(CARD(loop));
    try_these(CARD(triangle));
    try_these(CARD(figure_1));
}

/* Pages that are just full, and a line fewer and more: loops on one point, and maps of more points. Brackets stand side by
   side, at random and nested. */
static void try_pages(void)
{
    static const size_t areas[] = {1, 2, 49, 50, 51, 99, 100, 101, 150, 151, 2000, 2049}, points[] = {1, 2, 17, 49, 400, 2000};
    size_t i, k;
    unsigned lean;
    words = "pages";
    for (i = 0; i < COUNT(areas); i++)
        for (k = 0; k < COUNT(points); k++)
            for (lean = 0; lean <= 8; lean += 4)
                if (areas[i] + points[k] - 2 <= MOST_BORDERS) try_random_card(areas[i] + points[k] - 2, points[k], lean);
}

/* 2,048 borders; with 2,049 points the card is a star, trees, a path, each with one area of 4,096 sides. */
static void try_most_borders(void)
{
    static const size_t points[] = {1, 2, 3, 512, 1024, 1999, 2000, 2047, 2048, 2049};
    size_t k;
    unsigned lean;
    words = "2,048 borders";
    for (k = 0; k < COUNT(points); k++)
        for (lean = 0; lean <= 8; lean++) try_random_card(MOST_BORDERS, points[k], lean);
}

static void try_random(unsigned long count)
{
    words = "random cards";
    while (count-- > 0) try_any_card();
}

/* ---- cards that may not open ---- */

static void try_no_bytes(void)
{
    words = "no bytes";
    input.length = 0;
    try_input(0);
    try_input(1);
}

static void try_damaged(size_t borders)
{
    words = "damaged cards";
    each_damage(CARD(empty), try_these);
    each_damage(CARD(triangle), try_these);
    each_damage(CARD(figure_1), try_these);
    random_card(&card, borders, borders / 2, 4);
    each_damage(card.bytes, card.length, try_these);
    words = "headers";
    each_header(try_these);
}

/* A random card with some bits of it changed, or with strings of random bits. */
static void try_changed(unsigned long count)
{
    words = "changed bits";
    while (count-- > 0) {
        size_t k;
        try_any_card();
        if (random_below(4) == 0)
            for (k = HEADER; k < card.length; k++) card.bytes[k] = (uint8_t)random_number();
        else
            for (k = random_below(3) + 1; k > 0; k--) {
                size_t bit = random_below(8 * card.length);
                card.bytes[bit / 8] ^= (uint8_t)(1u << bit % 8);
            }
        try_these(card.bytes, card.length);
    }
}

static void try_random_bytes(unsigned long count)
{
    static const size_t most[] = {4, 8, 16, 64, 1024, 2048};
    words = "random bytes";
    while (count-- > 0) {
        size_t length = random_below(most[random_below(COUNT(most))] + 1);
        input.length = 0;
        while (input.length < length) {
            uint8_t byte = (uint8_t)(input.length < HEADER && random_below(4) != 0 ? random_below(9) : random_number());
            add_bytes(&input, &byte, 1);
        }
        try_input(random_below(100) == 0);
    }
}

/* The card, then bytes up to this length: 0, the card over and over, or any. */
static void try_longer(size_t length)
{
    uint8_t more[3][LONGEST] = {{0}};
    size_t lengths[3] = {LONGEST, card.length, LONGEST}, kind, k;
    memcpy(more[1], card.bytes, card.length);
    for (k = 0; k < LONGEST; k++) more[2][k] = (uint8_t)random_number();
    for (kind = 0; kind < 3; kind++) {
        input.length = 0;
        add_bytes(&input, card.bytes, card.length);
        while (input.length < length) add_bytes(&input, more[kind], lengths[kind]);
        input.length = length;
        try_input(random_below(10) == 0);
    }
}

/* Bytes after a card, about the length of the longest card too, and megabytes. 2,048 borders with 2 points have the longest. */
static void try_long(size_t most)
{
    static const struct { size_t m, n; } sizes[] = {{0, 1}, {3, 3}, {60, 2}, {2048, 1}, {2048, 2}, {2048, 2049}};
    const size_t lengths[] = {LONGEST - 1, LONGEST, LONGEST + 1, LONGEST + 2, 2 * LONGEST, 4096, 65536, most};
    size_t i, k, bad;
    words = "bytes after a card";
    for (i = 0; i < COUNT(sizes); i++)
        for (bad = 0; bad < 3; bad++) {
            random_card(&card, sizes[i].m, sizes[i].n, 4);
            if (bad == 1) put_field(card.bytes, AT_M, 2049 + sizes[i].m); /* too many borders */
            if (bad == 2) put_field(card.bytes, AT_AREAS, 0);             /* no area */
            try_longer(card.length + 1);
            try_longer(card.length + 2);
            for (k = 0; k < COUNT(lengths); k++)
                if (lengths[k] > card.length) try_longer(lengths[k]);
        }
}

/* Whether each outcome was met often. */
static int all_met(unsigned long least)
{
    static const uint8_t statuses[] = {0, 8, 20, 9, 10, 11, 12};
    size_t i;
    int met = 1;
    for (i = 0; i < COUNT(statuses); i++) {
        printf("  status %u: %lu times\n", statuses[i], times[statuses[i]]);
        met = met && times[statuses[i]] >= least;
    }
    return met;
}

int main(int argc, char **argv)
{
    int small = begin_tries(argc, argv), met;

    try_given();
    try_pages();
    try_no_bytes();
    try_damaged(small ? 20 : 130);
    try_long(small ? 100000 : 3000000);
    try_random(small ? 200 : 2000);
    try_changed(small ? 100 : 600);
    try_random_bytes(small ? 100 : 500);
    try_most_borders();
    if (!small) {
        words = "all strings";
        each_string(2, try_these);
        random_card(&card, MOST_BORDERS, 1, 4);
        try_these(card.bytes, card.length);
        report_time("2,048 borders and 2,049 areas");
    }
    met = all_met(small ? 20 : 100);
    return end_tries() != 0 || !met;
}
