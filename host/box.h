/*
 * box.h - what the boxes in this folder share: reading a card and a number, sessions, walking round an area, and saying what is wrong.
 * It has all of it, so that a box is one file to compile.
 */
#ifndef BOX_H
#define BOX_H

#include <errno.h>
#include <stdio.h>
#include <stdlib.h>
#include <string.h>

#include "pmap.h"

/* What the box is called in its messages: to be set first. */
static const char *box_name = "box";

struct card {
    uint8_t bytes[PMAP_LONGEST + 1]; /* one byte more than any map has: a longer file is seen to be too long */
    size_t length;
};

/* One sentence for each status that every box may meet. */
static inline const char *what_is_wrong(uint8_t status)
{
    switch (status) {
    case PMAP_HEADER:
        return "the card has no proper header: it is too short for one, or its numbers of borders and points can't be";
    case PMAP_AREAS:
        return "the card's count of areas is not that of its borders and points: it is damaged, or of another form than this box reads";
    case PMAP_LENGTH:
        return "the card is cut short or too long: its length is not the one that its header gives";
    case PMAP_UNUSED_BIT:
        return "the card is damaged: a bit that is not in use is 1";
    case PMAP_ONES:
        return "the card is damaged: its tree has not one border less than there are points";
    case PMAP_BRACKETS:
        return "the card is damaged: the first and second places of its borders don't pair up";
    case PMAP_NO_PLACE:
        return "the map has no such place";
    case PMAP_NO_POINT:
        return "the map has no such point";
    case PMAP_NO_AREA:
        return "the map has no such area";
    default:
        return "the map was refused for a reason that this box does not know";
    }
}

static inline void stop(const char *path, const char *words)
{
    fprintf(stderr, "%s: %s: %s\n", box_name, path, words);
    exit(1);
}

static inline void stop_if_refused(const char *path, uint8_t status)
{
    if (status != PMAP_OK) {
        fprintf(stderr, "%s: %s: %s (refusal %u)\n", box_name, path, what_is_wrong(status), (unsigned)status);
        exit(1);
    }
}

static inline void read_card(const char *path, struct card *card)
{
    FILE *file = fopen(path, "rb");

    if (file == NULL)
        stop(path, strerror(errno));
    card->length = fread(card->bytes, 1, sizeof card->bytes, file);
    if (ferror(file))
        stop(path, "the card can't be read");
    fclose(file);
}

/* The number of `what`, "an area" or "a point", in decimal: nothing is cut, so area 65,537 is refused and not taken for area 1. */
static inline size_t read_number_of(const char *what, const char *text)
{
    char *end;
    unsigned long long number;

    errno = 0;
    number = strtoull(text, &end, 10);
    if (text[0] < '0' || text[0] > '9' || *end != '\0' || errno != 0 || number > SIZE_MAX) {
        fprintf(stderr, "%s: '%s' is not %s number\n", box_name, text, what);
        exit(2);
    }
    return (size_t)number;
}

/* What a box is asked by a card and the number of `what` alone; `usage` says so. */
static inline size_t read_question(int argc, char **argv, const char *usage, const char *what, struct card *card)
{
    size_t number;

    if (argc != 3) {
        fprintf(stderr, "usage: %s\n", usage);
        exit(2);
    }
    number = read_number_of(what, argv[2]);
    read_card(argv[1], card);
    return number;
}

/* A side of an area: its place, and the area that lies across. */
struct side {
    size_t place, across;
};

/*
 * What is asked at each side: across, which area lies there, back again, and on to the next side. An area has at most as
 * many sides as the map has places, two for each border.
 */
enum { ACROSS, BEYOND, BACK, ON, OF_SIDE, MOST_SIDES = 2 * PMAP_MOST_BORDERS, MOST_CALLS = OF_SIDE * MOST_SIDES };
static const uint8_t of_side[OF_SIDE] = {
    [ACROSS] = PMAP_CALL_CROSS, [BEYOND] = PMAP_CALL_AREA, [BACK] = PMAP_CALL_CROSS, [ON] = PMAP_CALL_ALONG,
};

/* One session: the answer of each call. */
static inline void run_session(const char *path, const struct card *card, size_t first, const uint8_t *calls, size_t count,
                               uint16_t answers[MOST_CALLS])
{
    static uint8_t statuses[MOST_CALLS];
    size_t left, i;

    stop_if_refused(path, pmap_session(card->bytes, card->length, first, calls, count, statuses, MOST_CALLS, answers,
                                       MOST_CALLS, &left));
    for (i = 0; i < count; i++)
        stop_if_refused(path, statuses[i]);
}

/* Walks once round the area in one session, from its first place; gives how many sides it has: none if the map has no borders. */
static inline size_t walk_round(const char *path, const struct card *card, size_t area, struct side sides[MOST_SIDES])
{
    static uint8_t calls[MOST_CALLS];
    static uint16_t answers[MOST_CALLS];
    uint16_t first, of_area;
    size_t place, count, i;

    stop_if_refused(path, pmap_area_first(card->bytes, card->length, area, &first));
    stop_if_refused(path, pmap_sides(card->bytes, card->length, area, &of_area));
    count = OF_SIDE * (size_t)of_area;
    for (i = 0; i < count; i++)
        calls[i] = of_side[i % OF_SIDE];
    run_session(path, card, first, calls, count, answers);
    for (place = first, i = 0; i < of_area; i++) {
        sides[i].place = place;
        sides[i].across = answers[OF_SIDE * i + BEYOND];
        place = answers[OF_SIDE * i + ON];
    }
    return of_area;
}

/* What was printed has gone out, or the box does not say that all is well. */
static inline int finish_output(void)
{
    if (fflush(stdout) == 0 && !ferror(stdout))
        return 0;
    fprintf(stderr, "%s: standard output can't be written\n", box_name);
    return 1;
}

#endif
