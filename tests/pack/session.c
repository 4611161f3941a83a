/* Comparing whole sessions on the bytes that packing wrote with the drawing's book. */
#include "compare.h"

#include <stdio.h>

#include "calls.h"
#include "cards.h"
#include "lending.h"
#include "tally.h"

/* "A session is a first number and a list of calls": each call is an index of of_place. */
enum { MOST_CALLS = 4096 };

struct session {
    size_t first, count;
    uint8_t calls[MOST_CALLS];
};

/* All answers in order, and the place left at the end. */
struct account {
    struct reply replies[MOST_CALLS];
    size_t place;
};

static struct loan map_loan;
static struct book book;

/* "The answer is the new place", of a move that is not refused; else the place stays. */
static size_t place_after(size_t place, uint8_t call, struct reply reply)
{
    return reply.status == 0 && call < MOVES ? reply.value : place;
}

static void by_book(const struct session *s, struct account *account)
{
    size_t i;
    account->place = s->first;
    for (i = 0; i < s->count; i++) {
        account->replies[i] = of_place[s->calls[i]].book(&book, account->place);
        account->place = place_after(account->place, s->calls[i], account->replies[i]);
    }
}

static void by_library(const struct session *s, const uint8_t *map, size_t length, struct account *account)
{
    size_t i;
    account->place = s->first;
    for (i = 0; i < s->count; i++) {
        account->replies[i] = library_reply(&of_place[s->calls[i]], map, length, account->place);
        account->place = place_after(account->place, s->calls[i], account->replies[i]);
    }
}

static void compare_accounts(const struct session *s, const struct account *want, const struct account *given,
                             const uint8_t *map, size_t length)
{
    char detail[200];
    size_t i;
    for (i = 0; i < s->count; i++) {
        const struct reply *w = &want->replies[i], *g = &given->replies[i];
        compared_one();
        if (same_reply(*w, *g)) {
            seen_once(w->status);
            continue;
        }
        snprintf(detail, sizeof detail, "call %zu of a session from %zu, %s: gives %u, %zu and sign %u, wanted %u, %zu and %u", i + 1,
                 s->first, of_place[s->calls[i]].name, g->status, g->value, g->sign, w->status, w->value, w->sign);
        differs("session", map, length, detail);
        return;
    }
    expect(want->place == given->place, "session", "leaves another place at the end");
}

/* ---- sessions by chance ---- */

static size_t first_number(size_t m)
{
    static const size_t odd[] = {0, 65536, 65537, 4294967297u, (size_t)1 << 63, SIZE_MAX};
    if (m == 0 || random_below(16) == 0) return random_below(2) ? odd[random_below(6)] : 2 * m + random_below(3);
    return 1 + random_below(2 * m);
}

static void make_session(struct session *s, size_t count)
{
    size_t i;
    s->first = first_number(book.drawing->m);
    s->count = count;
    for (i = 0; i < count; i++) s->calls[i] = (uint8_t)random_below(OF_PLACE);
}

void compare_sessions(const struct drawing *d, const uint8_t *bytes, size_t length, size_t count, size_t calls)
{
    static struct session session;
    static struct account want, given;
    const uint8_t *map = lend(&map_loan, bytes, length);
    make_book(d, &book);
    while (count-- > 0) {
        make_session(&session, calls);
        by_book(&session, &want);
        by_library(&session, map, length, &given);
        compare_accounts(&session, &want, &given, bytes, length);
    }
    expect(take_back(&map_loan, bytes), "session", "the map was changed");
}
