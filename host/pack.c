/*
 * pack - what the desk does with a drawing: it packs the drawing and writes the card.
 *
 *     pack [-m] DRAWING CARD
 *
 * DRAWING is a text as `places` reads it: the line `border first second mark`, then for each border its number, the
 * entries of its even and odd end, and its mark; decimal without leading zeros. With -m the desk finds the marks itself:
 * those of the text are any numbers up to 255, and are not looked at. CARD is written only if the drawing is accepted, and
 * only as a whole: it is written beside, as CARD.part, and then renamed. What is wrong goes to standard error, with
 * refusal 7 the two borders that cross first in the tour, and the exit status is then 1; it is 2 if the desk was not asked
 * properly.
 */
#include <errno.h>
#include <stdio.h>
#include <stdlib.h>
#include <string.h>
#include <sys/stat.h>

#include "pmap.h"

enum { BORDERS = 2048 };

static uint16_t turning[2 * BORDERS];
static uint8_t marks[BORDERS];
static uint16_t work[6 * BORDERS];

/* One sentence for each refusal of packing. */
static const char *what_is_wrong(uint8_t status)
{
    switch (status) {
    case PMAP_RANGE:
        return "an entry is not the number of an end, or a mark is neither 0 nor 1";
    case PMAP_REPEATED:
        return "two entries of the turning list are equal";
    case PMAP_APART:
        return "the marked borders don't join all points";
    case PMAP_MANY_MARKS:
        return "there are more marked borders than a spanning tree has";
    case PMAP_CROSSING:
        return "two unmarked borders cross";
    default:
        return "the drawing was refused for a reason that this desk does not know";
    }
}

/* One sentence for each refusal of finding marks, for which the marks of the text are nothing. */
static const char *why_no_marks(uint8_t status)
{
    switch (status) {
    case PMAP_RANGE:
        return "an entry is not the number of an end";
    case PMAP_PIECES:
        return "the drawing falls into pieces: some two points have no path of borders between them";
    default:
        return what_is_wrong(status);
    }
}

static void stop(const char *path, const char *words)
{
    fprintf(stderr, "pack: %s: %s\n", path, words);
    exit(1);
}

static void refuse(const char *path, const char *words, unsigned number)
{
    fprintf(stderr, "pack: %s: %s (refusal %u)\n", path, words, number);
    exit(1);
}

/* The text is not as it should be; or what is missing of it could not be read. */
static void refuse_text(const char *path, FILE *file, const char *words)
{
    if (ferror(file))
        stop(path, "the drawing can't be read");
    refuse(path, words, 17);
}

/* The next number of a line, at most `most`, and the byte after it. */
static unsigned long read_number(const char *path, FILE *file, unsigned long most, int after)
{
    unsigned long number = 0;
    int first = getc(file), c = first, digits = 0;

    while (c >= '0' && c <= '9' && number <= most) {
        number = 10 * number + (unsigned long)(c - '0');
        digits++;
        c = getc(file);
    }
    if (digits == 0 || (first == '0' && digits > 1) || number > most || c != after)
        refuse_text(path, file, "a line is not a border's number, two entries and a mark");
    return number;
}

/* Reads the drawing; the number of its borders. */
static size_t read_drawing(const char *path)
{
    static const char names[] = "border first second mark\n";
    char line[sizeof names];
    size_t m = 0;
    int c;
    FILE *file = fopen(path, "rb");

    if (file == NULL)
        stop(path, strerror(errno));
    if (fgets(line, sizeof line, file) == NULL || strcmp(line, names) != 0)
        refuse_text(path, file, "the first line is not 'border first second mark'");
    while ((c = getc(file)) != EOF) {
        ungetc(c, file);
        if (m == BORDERS)
            refuse_text(path, file, "there are more than 2,048 borders");
        if (read_number(path, file, BORDERS, ' ') != m)
            refuse_text(path, file, "the borders are not numbered in order, from 0");
        turning[2 * m] = (uint16_t)read_number(path, file, UINT16_MAX, ' ');
        turning[2 * m + 1] = (uint16_t)read_number(path, file, UINT16_MAX, ' ');
        marks[m] = (uint8_t)read_number(path, file, UINT8_MAX, '\n');
        m++;
    }
    if (ferror(file))
        stop(path, "the drawing can't be read");
    fclose(file);
    return m;
}

/* Puts marks of a spanning tree in the place of those that were read. */
static void find_marks(const char *path, size_t m)
{
    uint8_t status = pmap_marks(turning, 2 * m, marks, m, work, 6 * m);

    if (status != PMAP_OK)
        refuse(path, why_no_marks(status), status);
}

/* Packs the drawing; the length of the card. */
static uint16_t pack_drawing(const char *path, size_t m, uint8_t card[PMAP_LONGEST])
{
    uint16_t length;
    uint32_t packed = pmap_pack(turning, 2 * m, marks, m, 0, work, 6 * m, card, PMAP_LONGEST, &length);
    uint8_t status = PMAP_STATUS(packed);

    if (status == PMAP_CROSSING)
        fprintf(stderr, "pack: %s: the first that cross in the tour are borders %u and %u\n", path,
                (unsigned)PMAP_SMALLER(packed), (unsigned)PMAP_LARGER(packed));
    if (status != PMAP_OK)
        refuse(path, what_is_wrong(status), status);
    return length;
}

/* Writes `card` to a new file; 0 if all of it is there. */
static int write_file(const char *path, const uint8_t *card, size_t length)
{
    FILE *file = fopen(path, "wb");
    int failed;

    if (file == NULL)
        return 1;
    failed = fwrite(card, 1, length, file) != length;
    return fclose(file) != 0 || failed;
}

/* The card at `path` is the old one or the new one at every moment, and never a part of one. */
static void write_card(const char *path, const uint8_t *card, size_t length)
{
    size_t size = strlen(path) + sizeof ".part";
    char *part = malloc(size);
    struct stat there;

    if (part == NULL)
        stop(path, strerror(errno));
    if (stat(path, &there) == 0 && !S_ISREG(there.st_mode))
        stop(path, "this is not a file to write a card to");
    snprintf(part, size, "%s.part", path);
    if (write_file(part, card, length) != 0 || rename(part, path) != 0) {
        int error = errno;
        remove(part);
        stop(path, strerror(error));
    }
    free(part);
}

int main(int argc, char **argv)
{
    static uint8_t card[PMAP_LONGEST];
    int finds = argc > 1 && strcmp(argv[1], "-m") == 0;
    const char *from, *to;
    size_t m;

    if (argc != 3 + finds) {
        fprintf(stderr, "usage: pack [-m] DRAWING CARD\n");
        return 2;
    }
    from = argv[1 + finds];
    to = argv[2 + finds];
    m = read_drawing(from);
    if (finds)
        find_marks(from, m);
    write_card(to, card, pack_drawing(from, m, card));
    return 0;
}
