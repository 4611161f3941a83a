/* Cards for the test program. */
#include "cards.h"

#include <string.h>

static uint64_t state = 0x9e3779b97f4a7c15u;

void seed_random(uint64_t seed)
{
    int i;
    state = seed * 0x9e3779b97f4a7c15u;
    if (state == 0) state = 1;
    for (i = 0; i < 8; i++) random_number();
}

uint64_t random_number(void)
{
    state ^= state >> 12;
    state ^= state << 25;
    state ^= state >> 27;
    return state * 0x2545f4914f6cdd1du;
}

size_t random_below(size_t bound)
{
    return (size_t)((random_number() >> 16) % bound);
}

void exchange(uint16_t *x, uint16_t *y)
{
    uint16_t t = *x;
    *x = *y;
    *y = t;
}

void shuffle(uint16_t *row, size_t count)
{
    size_t i;
    for (i = count; i > 1; i--) exchange(&row[i - 1], &row[random_below(i)]);
}

static void put_bit(uint8_t *string, size_t i, unsigned bit)
{
    string[i / 8] |= (uint8_t)(bit << i % 8);
}

static void put_header(struct card *card, size_t m, size_t n)
{
    memset(card->bytes, 0, sizeof card->bytes);
    card->length = HEADER + strings_length(m, n);
    put_field(card->bytes, AT_M, m);
    put_field(card->bytes, AT_N, n);
    put_field(card->bytes, AT_AREAS, m + 2 - n);
}

/* 2k balanced bits; 0 opens. */
static void put_balanced(uint8_t *string, size_t k, unsigned lean)
{
    size_t i, open = 0, left = k;
    for (i = 0; i < 2 * k; i++) {
        int opens = left > 0 && (open == 0 || random_below(8) < lean);
        if (opens) {
            open++;
            left--;
        } else {
            open--;
            put_bit(string, i, 1);
        }
    }
}

void random_card(struct card *card, size_t m, size_t n, unsigned lean)
{
    uint8_t *a = card->bytes + HEADER, *b = a + bytes_of(2 * m), *b_star = b + bytes_of(2 * n - 2);
    size_t i, ones = 2 * n - 2;

    put_header(card, m, n);
    for (i = 0; i < 2 * m; i++) {
        if (random_below(2 * m - i) < ones) {
            put_bit(a, i, 1);
            ones--;
        }
    }
    put_balanced(b, n - 1, lean);
    put_balanced(b_star, m + 1 - n, lean);
}

void card_of_strings(struct card *card, size_t m, size_t n, uint64_t strings)
{
    size_t bits[3] = {2 * m, 2 * n - 2, 2 * (m + 1 - n)}, k, i;
    uint8_t *string = card->bytes + HEADER;

    put_header(card, m, n);
    for (k = 0; k < 3; k++) {
        for (i = 0; i < bits[k]; i++) {
            put_bit(string, i, (unsigned)(strings & 1));
            strings >>= 1;
        }
        string += bytes_of(bits[k]);
    }
}

void card_of_kinds(struct card *card, const char *kinds)
{
    size_t places = strlen(kinds), marked = 0, at[2] = {0, 0}, i;
    uint8_t *a = card->bytes + HEADER, *b = a + bytes_of(places), *b_star;

    for (i = 0; i < places; i++) marked += strchr("()", kinds[i]) != NULL;
    b_star = b + bytes_of(marked);
    put_header(card, places / 2, marked / 2 + 1);
    for (i = 0; i < places; i++) {
        int round = strchr("()", kinds[i]) != NULL;
        put_bit(a, i, (unsigned)round);
        put_bit(round ? b : b_star, at[round]++, strchr(")]", kinds[i]) != NULL);
    }
}

void repeat_kinds(char kinds[MOST_ENDS + 1], const struct repeated *parts, size_t count)
{
    size_t part, times;
    *kinds = '\0';
    for (part = 0; part < count; part++)
        for (times = parts[part].times; times > 0; times--) kinds = stpcpy(kinds, parts[part].kinds);
}

size_t areas_of_kinds(const char *kinds)
{
    size_t areas = 1;
    for (; *kinds != '\0'; kinds++) areas += *kinds == '[';
    return areas;
}

void renumber(const struct drawing *d, struct drawing *renumbered)
{
    static size_t border[MOST_BORDERS], end[MOST_ENDS];
    size_t e, h;

    for (e = 0; e < d->m; e++) {
        size_t j = random_below(e + 1);
        border[e] = border[j];
        border[j] = e;
    }
    for (e = 0; e < d->m; e++) {
        size_t turned = random_below(2);
        end[2 * e] = 2 * border[e] + turned;
        end[2 * e + 1] = 2 * border[e] + 1 - turned;
        renumbered->marks[border[e]] = d->marks[e];
    }
    for (h = 0; h < 2 * d->m; h++) renumbered->turning[end[h]] = (uint16_t)end[d->turning[h]];
    renumbered->m = d->m;
    renumbered->start = d->m == 0 ? 0 : random_below(2 * d->m);
}
