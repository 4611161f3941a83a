/*
 * quote - what an agent's box does with a card: it walks the borders of one area and says what lies across each.
 *
 *     quote CARD AREA
 *
 * CARD is a file with the bytes of a packed map, AREA an area number from 1. To standard output goes a line with the numbers of
 * the area's sides and of its neighbours, which are the other areas across a side, each counted once; then one line for each
 * side. What is wrong with a card or a number, and that the output can't be written, goes to standard error, and the exit status
 * is then 1; it is 2 if the box was not asked properly.
 */
#include "box.h"

int main(int argc, char **argv)
{
    static struct card card;
    static struct side sides[MOST_SIDES];
    const char *path;
    size_t area, count, i;
    uint16_t m, n, neighbours;

    box_name = "quote";
    area = read_question(argc, argv, "quote CARD AREA", "an area", &card);
    path = argv[1];

    stop_if_refused(path, pmap_open(card.bytes, card.length, &m, &n));
    stop_if_refused(path, pmap_neighbours(card.bytes, card.length, area, &neighbours));
    count = walk_round(path, &card, area, sides);
    printf("area %zu of %u, sides: %zu, neighbours: %u\n", area, (unsigned)m - n + 2, count, (unsigned)neighbours);
    for (i = 0; i < count; i++)
        printf("place %zu: across lies area %zu\n", sides[i].place, sides[i].across);
    if (count == 0)
        printf("the map has no borders\n");
    return finish_output();
}
