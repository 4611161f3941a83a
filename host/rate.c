/*
 * rate - what an agent's box does with a card and a tariff: it says the factor of one area, and of what lies across each side.
 *
 *     rate CARD TARIFF AREA
 *
 * CARD is a file with the bytes of a packed map, AREA an area number from 1. TARIFF is a text with one line for each area, area
 * 1 first: `own FACTOR`, `held FACTOR FLOOR CEILING` or `unknown`; decimal numbers, single spaces, a line feed after each line.
 *
 * To standard output goes a line with the area's factor, then one line for each side. The factor of an area that is not known is
 * the mean of the own and held ones across its sides; where there are none, it has no factor. A factor is printed with as many
 * digits as it takes to read it back to the last bit. What is wrong with a card, a tariff or a number, and that the output can't
 * be written, goes to standard error, and the exit status is then 1; it is 2 if the box was not asked properly.
 */
#include "box.h"

/* No map has more areas. */
enum { MOST_AREAS = PMAP_MOST_BORDERS + 1, PER_AREA = 3 };

struct tariff {
    size_t areas;
    uint8_t kinds[MOST_AREAS];
    double values[PER_AREA * MOST_AREAS];
};

/* The words of a tariff, the words of the output, and how many numbers follow, by the kind. */
static const struct {
    const char *word, *printed;
    size_t numbers;
} kinds[] = {
    [PMAP_KIND_OWN] = {"own", "own", 1},
    [PMAP_KIND_HELD] = {"held", "held", 3},
    [PMAP_KIND_UNKNOWN] = {"unknown", "not known", 0},
};
enum { KINDS = sizeof kinds / sizeof *kinds };

/* ---- the tariff ---- */

/* A space and a decimal number, from `text` on: gives what comes after it, or NULL if it is not that. */
static const char *read_number(const char *text, double *number)
{
    char *end;

    if (text[0] != ' ' || text[1] < '0' || text[1] > '9')
        return NULL;
    *number = strtod(text + 1, &end);
    return end == text + 1 + strspn(text + 1, "0123456789.eE+-") ? end : NULL;
}

/* Gives 1 if the text is the line of this kind. */
static int read_as(uint8_t kind, const char *text, double values[PER_AREA])
{
    size_t length = strlen(kinds[kind].word), i;

    if (strncmp(text, kinds[kind].word, length) != 0)
        return 0;
    text += length;
    for (i = 0; i < kinds[kind].numbers && text != NULL; i++)
        text = read_number(text, &values[i]);
    return text != NULL && strcmp(text, "\n") == 0;
}

static void refuse_line(const char *path, size_t line, const char *words)
{
    fprintf(stderr, "%s: %s: line %zu: %s\n", box_name, path, line, words);
    exit(1);
}

static void read_tariff(const char *path, struct tariff *tariff)
{
    char text[256];
    uint8_t kind;
    FILE *file = fopen(path, "rb");

    if (file == NULL)
        stop(path, strerror(errno));
    tariff->areas = 0;
    while (fgets(text, sizeof text, file) != NULL) {
        if (tariff->areas == MOST_AREAS)
            stop(path, "there are more lines than a map has areas");
        for (kind = 0; kind < KINDS; kind++)
            if (read_as(kind, text, &tariff->values[PER_AREA * tariff->areas]))
                break;
        tariff->kinds[tariff->areas++] = kind;
        if (kind == KINDS)
            refuse_line(path, tariff->areas, "not 'own FACTOR', 'held FACTOR FLOOR CEILING' or 'unknown'");
    }
    if (ferror(file))
        stop(path, "the tariff can't be read");
    fclose(file);
}

/* ---- factors ---- */

static uint8_t ask(const struct card *card, const struct tariff *tariff, const uint8_t *of_areas, size_t area, double *factor)
{
    return pmap_factor(card->bytes, card->length, area, of_areas, tariff->areas, tariff->values, PER_AREA * tariff->areas, factor);
}

/* The first line that is refused where all the others say nothing. */
static size_t refused_line(const struct card *card, const struct tariff *tariff)
{
    uint8_t alone[MOST_AREAS];
    double factor;
    size_t k;

    memset(alone, PMAP_KIND_UNKNOWN, sizeof alone);
    for (k = 1; k < tariff->areas; k++) {
        alone[k - 1] = tariff->kinds[k - 1];
        if (ask(card, tariff, alone, k, &factor) == PMAP_TARIFF)
            break;
        alone[k - 1] = PMAP_KIND_UNKNOWN;
    }
    return k;
}

static void stop_for_tariff(const char *path, const struct card *card, const struct tariff *tariff, size_t areas)
{
    if (tariff->areas == areas)
        refuse_line(path, refused_line(card, tariff),
                    "a number is not from 0.01 to 100, or the floor is above the ceiling (refusal 18)");
    fprintf(stderr, "%s: %s: the tariff has %zu lines, and the map has %zu areas (refusal 18)\n", box_name, path, tariff->areas,
            areas);
    exit(1);
}

/* With no more digits than it takes. A factor is at most 100, so that three digits need no exponent. */
static void print_number(double number)
{
    char text[40];
    int digits = 3;

    do
        snprintf(text, sizeof text, "%.*g", digits, number);
    while (digits++ < 17 && strtod(text, NULL) != number);
    printf("%s", text);
}

/* The end of an area's line: its kind and its factor. */
static void print_factor(const struct card *card, const struct tariff *tariff, size_t area)
{
    double factor;

    printf(", %s, ", kinds[tariff->kinds[area - 1]].printed);
    if (ask(card, tariff, tariff->kinds, area, &factor) == PMAP_NO_FACTOR) {
        printf("no factor\n");
        return;
    }
    printf("factor ");
    print_number(factor);
    printf("\n");
}

int main(int argc, char **argv)
{
    static struct card card;
    static struct tariff tariff;
    static struct side sides[MOST_SIDES];
    size_t area, areas, count, i;
    uint16_t m, n;
    uint8_t status;
    double factor;

    box_name = "rate";
    if (argc != 4) {
        fprintf(stderr, "usage: rate CARD TARIFF AREA\n");
        return 2;
    }
    area = read_number_of("an area", argv[3]);
    read_card(argv[1], &card);
    read_tariff(argv[2], &tariff);

    stop_if_refused(argv[1], pmap_open(card.bytes, card.length, &m, &n));
    areas = (size_t)m - n + 2;
    status = ask(&card, &tariff, tariff.kinds, area, &factor);
    if (status == PMAP_TARIFF)
        stop_for_tariff(argv[2], &card, &tariff, areas);
    if (status != PMAP_NO_FACTOR)
        stop_if_refused(argv[1], status);

    printf("area %zu of %zu", area, areas);
    print_factor(&card, &tariff, area);
    count = walk_round(argv[1], &card, area, sides);
    for (i = 0; i < count; i++) {
        printf("place %zu: across lies area %zu", sides[i].place, sides[i].across);
        print_factor(&card, &tariff, sides[i].across);
    }
    if (count == 0)
        printf("the map has no borders\n");
    return finish_output();
}
