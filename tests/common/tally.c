/* Counting what was compared. */
#include "tally.h"

#include <stdio.h>
#include <stdlib.h>

static unsigned long compared, differing, parts_passed, parts_failed, seen[256];

void compared_one(void)
{
    compared++;
}

void differs(const char *what, const uint8_t *map, size_t length, const char *detail)
{
    size_t i;
    if (differing++ >= 5) return;
    printf("  differs: %s: %s", what, detail);
    if (length > 0) printf("; the card has %zu bytes:", length);
    for (i = 0; i < length && i < 40; i++) printf(" %02X", map[i]);
    printf("%s\n", length > 40 ? " .." : "");
}

void expect(int holds, const char *what, const char *otherwise)
{
    compared_one();
    if (!holds) differs(what, NULL, 0, otherwise);
}

void seen_once(uint8_t status)
{
    seen[status]++;
}

unsigned long times_seen(uint8_t status)
{
    return seen[status];
}

void expect_seen(const uint8_t *statuses, size_t count)
{
    size_t i;
    for (i = 0; i < count; i++) {
        printf("  status %u: %lu times\n", statuses[i], times_seen(statuses[i]));
        expect(times_seen(statuses[i]) >= 100, "status", "was seen fewer than 100 times");
    }
}

void part_ends(const char *name)
{
    int good = compared > 0 && differing == 0;
    printf("check: %s: %lu compared, %lu differ\n", name, compared, differing);
    if (good) parts_passed++;
    else parts_failed++;
    compared = differing = 0;
    if (!good && getenv("FAULT") != NULL && atoi(getenv("FAULT")) != 0) exit((int)finish());
}

unsigned long finish(void)
{
    printf("%lu passed, %lu failed\n", parts_passed, parts_failed);
    return parts_failed;
}
