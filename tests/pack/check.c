/*
 * Compares finding marks, packing, unpacking and sessions on packed bytes with an independent account of document 01 and of
 * request 7/14, on drawings and cards of every kind.
 *
 *     check              everything
 *     check small        the parts on small drawings, and fewer of them
 *     check small heap   the same with each list in a heap block of its very length, for valgrind
 *
 * Each part begins from a seed that is printed; SEED in the environment changes them all. One line for each part says how
 * much was compared. Its last line is 'N passed, M failed', a part being one.
 */
#include <stdio.h>
#include <stdlib.h>
#include <string.h>

#include "cards.h"
#include "lending.h"
#include "parts.h"
#include "tally.h"

int small;

/* How much of a part `check small` runs. */
enum share { NONE, SOME, ALL };

static const struct {
    void (*run)(void);
    enum share in_small;
    const char *name;
} parts[] = {
    {worked_examples, ALL, "document 01's examples"},
    {lengths, ALL, "lists of every length"},
    {no_borders, ALL, "drawings of no border in every form"},
    {one_border, ALL, "drawings of 1 border in every form"},
    {two_borders, SOME, "drawings of 2 borders in every form"},
    {more_borders, NONE, "drawings of 3 and 4 borders, all turning lists in range and all marks"},
    {rooms, SOME, "working list and output one short, exact and longer"},
    {broken, SOME, "drawings that fail each of 1 to 7, alone and together"},
    {handles, SOME, "drawings not in the plane"},
    {crossings, SOME, "drawings with crossings side by side, nested and by chance"},
    {small_maps, SOME, "all maps of up to 4 borders, unpacked and packed"},
    {random_maps, SOME, "random maps of up to 2,048 borders, unpacked and packed"},
    {damaged_maps, SOME, "damaged maps, unpacked"},
    {headers, ALL, "headers about every bound, unpacked"},
    {good_drawings, SOME, "good drawings of up to 40 borders: packed, unpacked, walked"},
    {large_drawings, NONE, "good drawings of up to 2,048 borders: packed, unpacked, walked"},
    {known_marks, ALL, "marks by hand"},
    {grown_marks, SOME, "marks for drawings in the plane and not: found, and packed with"},
    {scattered_marks, SOME, "marks for drawings by chance, of one part or several"},
    {parted_marks, SOME, "marks for drawings of several parts"},
    {large_marks, NONE, "marks for drawings of 2,048 borders"},
    {every_status, ALL, "every status was seen"},
};

int main(int argc, char **argv)
{
    uint64_t seed = getenv("SEED") == NULL ? 1 : strtoull(getenv("SEED"), NULL, 0);
    size_t i;

    small = argc > 1 && strcmp(argv[1], "small") == 0;
    setvbuf(stdout, NULL, _IOLBF, 0);
    prepare_lending(argc > 2 && strcmp(argv[2], "heap") == 0);
    for (i = 0; i < sizeof parts / sizeof *parts; i++) {
        unsigned long long from = 1000 * seed + i;
        char line[120];
        if (small && parts[i].in_small == NONE) continue;
        seed_random(from);
        parts[i].run();
        snprintf(line, sizeof line, "%s%s, seed %llu", parts[i].name, small && parts[i].in_small == SOME ? ", some" : "", from);
        part_ends(line);
    }
    return finish() > 0;
}
