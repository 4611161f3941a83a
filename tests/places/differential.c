/*
 * Compares a program with the independent account, byte for byte, on random well-formed and harmed texts.
 *
 *     differential PROGRAM FOLDER [small]
 *
 * FOLDER is for the texts. Its last line is 'N passed, M failed'; with `small` it tries fewer texts.
 */
#include "cards.h"
#include "drawings.h"
#include "harm.h"
#include "program.h"
#include "text.h"

static struct drawing drawing;

/* The text of a random drawing, in the plane unless it has handles. */
static void draw(size_t m, size_t handles)
{
    grow(&drawing, m, (unsigned)random_below(9));
    while (handles-- > 0 && drawing.m < MOST_BORDERS) add_handle(&drawing);
    mark_tree(&drawing);
    write_drawing(&drawing, &input);
}

static void try_small(void)
{
    size_t m;
    unsigned way;
    for (m = 0; m <= 4; m++)
        for (way = 0; way < HARMS; way++) {
            draw(m, 0);
            try("small", 0);
            harm(way, &input);
            try("small and harmed", 0);
        }
}

/* Every number of a drawing of 3 borders made every hard number. */
static void try_numbers(void)
{
    size_t which, k;
    for (which = 0; which < 12; which++)
        for (k = 0; k < HARD_NUMBERS; k++) {
            draw(3, 0);
            set_number(which, hard_numbers[k], &input);
            try("another number", 0);
        }
}

static void try_random(unsigned long count)
{
    static const size_t sizes[] = {1, 2, 3, 4, 6, 9, 12, 40, 300};
    unsigned long i;
    for (i = 0; i < count; i++) {
        size_t m = random_below(50) == 0 ? random_below(2049) : random_below(sizes[random_below(9)] + 1);
        draw(m, random_below(3) == 0 ? random_below(3) : 0);
        if (random_below(3) != 0) harm((unsigned)random_below(HARMS), &input);
        if (random_below(8) == 0) harm((unsigned)random_below(HARMS), &input);
        try("random", random_below(100) == 0);
    }
}

/* The longest texts that there are, a byte more, a border more: entries 65,535 and marks 255. */
static void try_longest(void)
{
    size_t e, m;
    for (m = 2046; m <= 2050; m++) {
        input.length = 0;
        add_text(&input, "border first second mark\n");
        for (e = 0; e < m; e++) {
            add_number(&input, e);
            add_text(&input, " 65535 65535 255\n");
        }
        try("the longest lines", 0);
        add_text(&input, "1");
        try("the longest lines and a byte", 0);
    }
    draw(2048, 0);
    add_text(&input, "2048 0 0 0\n");
    try("2,049 borders", 0);
}

/* Megabytes that begin as a good text does, or not. */
static void try_megabytes(void)
{
    static const char *const more[] = {"0", " ", "\n", "7 7 7 1\n", "border first second mark\n"};
    static const size_t sizes[] = {0, 5, 2048};
    size_t i, k;
    for (i = 0; i < 5; i++)
        for (k = 0; k < 3; k++) {
            draw(sizes[k], 0);
            while (input.length < 3000000) add_text(&input, more[i]);
            try("megabytes", i == 1 && k == 2);
        }
}

static void try_most_borders(void)
{
    size_t i;
    for (i = 0; i < 6; i++) {
        draw(2048 - i % 3, i % 3);
        try("2,048 borders", i == 5);
    }
}

int main(int argc, char **argv)
{
    int small = begin_tries(argc, argv);

    try_small();
    try_numbers();
    try_random(small ? 300 : 3000);
    try_longest();
    if (!small) {
        try_most_borders();
        try_megabytes();
        draw(2048, 0);
        report_time("2,048 borders");
    }
    return end_tries();
}
