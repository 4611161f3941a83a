/* Comparing pmap_session with the book of a drawing and with single calls. */
#include "sessions.h"

#include <stdio.h>
#include <string.h>

#include "calls.h"
#include "cards.h"
#include "lending.h"
#include "pmap.h"
#include "tally.h"

enum { MOST_CALLS = 40000, MOST_ENTRIES = MOST_CALLS + 40 };

/* ---- one session ---- */

static struct loan calls_loan, statuses_loan, answers_loan, place_loan;

/* What the calls of a session must give, in order, and the place left at the end. */
struct told {
    uint8_t statuses[MOST_CALLS];
    uint16_t answers[MOST_CALLS];
    size_t place;
};

static void session_differs(const char *what, const uint8_t *map, size_t length, const struct asked *s, uint8_t want, uint8_t status)
{
    char detail[200];
    snprintf(detail, sizeof detail, "%s; from %zu, %zu calls, lists of %zu and %zu: status %u, wanted %u", what, s->first, s->calls_len,
             s->statuses_len, s->answers_len, status, want);
    differs("pmap_session", map, length, detail);
}

/* The status, and all memory that was lent: where the session declines it holds what it held. Gives 1 if all is right. */
static int compare_session(const uint8_t *map, size_t length, const struct asked *s, uint8_t want, const struct told *told)
{
    static uint8_t statuses[MOST_ENTRIES];
    static uint16_t answers[MOST_ENTRIES];
    size_t place, *lent_place;
    uint8_t *lent_calls, *lent_statuses, status;
    uint16_t *lent_answers;
    const char *wrong = NULL;

    fill(statuses, s->statuses_len);
    fill(answers, 2 * s->answers_len);
    fill(&place, sizeof place);
    lent_calls = lend_list(&calls_loan, s->calls, s->calls_len);
    lent_statuses = lend_list(&statuses_loan, statuses, s->statuses_len);
    lent_answers = lend_list(&answers_loan, answers, 2 * s->answers_len);
    lent_place = lend(&place_loan, &place, sizeof place);
    status = pmap_session(map, length, s->first, lent_calls, s->calls_len, lent_statuses, s->statuses_len, lent_answers, s->answers_len,
                          lent_place);
    if (want == 0) {
        memcpy(statuses, told->statuses, s->calls_len);
        memcpy(answers, told->answers, 2 * s->calls_len);
        place = told->place;
    }
    if (!take_back(&place_loan, &place)) wrong = "the place is not as it must be";
    if (!take_back(&answers_loan, answers)) wrong = "the answers are not as they must be";
    if (!take_back(&statuses_loan, statuses)) wrong = "the statuses are not as they must be";
    if (!take_back(&calls_loan, s->calls)) wrong = "the calls were changed";
    if (status != want) wrong = "another status";
    compared_one();
    if (wrong == NULL) seen_once(status);
    else session_differs(wrong, map, length, s, want, status);
    return wrong == NULL;
}

/* Entry for entry what single calls answer, if the place is passed on by hand. */
static void compare_single(const uint8_t *map, size_t length, const struct asked *s, const struct told *told)
{
    size_t place = s->first, i;
    for (i = 0; i < s->calls_len; i++) {
        uint8_t code = s->calls[i];
        struct reply in_session = {told->statuses[i], told->answers[i] % SIGN_BIT, told->answers[i] / SIGN_BIT},
                     single = library_reply(&of_place[code], map, length, place);
        compared_one();
        if (!same_reply(single, in_session)) {
            session_differs(of_place[code].name, map, length, s, single.status, in_session.status);
            return;
        }
        if (single.status == 0 && code < MOVES) place = single.value;
    }
    expect(place == told->place, "pmap_session", "leaves another place than single calls");
}

/* ---- making sessions ---- */

enum { WHOLE, FEW_STATUSES, FEW_ANSWERS, FEW_OF_BOTH, BAD_LAST, BAD_AMONG, BAD_AND_FEW, HARMS };

static size_t first_number(const struct book *b)
{
    static const size_t odd[] = {0, 65535, 65536, 65537, 4294967296u, 4294967297u, (size_t)1 << 63, SIZE_MAX};
    size_t m = b == NULL ? 0 : b->drawing->m, which = random_below(m == 0 ? 10 : 40);
    if (which < 8) return odd[which];
    return which < 10 ? 2 * m + 1 + random_below(2) : 1 + random_below(2 * m);
}

static uint8_t calls[MOST_CALLS];

static void make_calls(size_t count)
{
    size_t i;
    for (i = 0; i < count; i++) calls[i] = (uint8_t)random_below(OF_PLACE);
}

/* Turns only: in one sense, in the other, or now so and now so. */
enum { ONWARDS, BACKWARDS, BOTH, SENSES };

static void make_turns(size_t count, int sense)
{
    uint8_t code = sense == BACKWARDS ? PMAP_CALL_TURN_BACK : PMAP_CALL_TURN;
    size_t i;
    for (i = 0; i < count; i++) {
        if (sense == BOTH && random_below(500) == 0) code = (uint8_t)(PMAP_CALL_TURN + PMAP_CALL_TURN_BACK - code);
        calls[i] = code;
    }
}

static void harm(struct asked *s, int how)
{
    static const uint8_t no_codes[] = {6, 255, 7, 128, 13, 6};
    uint8_t code = no_codes[random_below(sizeof no_codes)];
    if (s->calls_len == 0) return;
    if (how == BAD_LAST || how == BAD_AND_FEW) calls[s->calls_len - 1] = code;
    if (how == BAD_AMONG) calls[random_below(s->calls_len)] = code;
    if (how == FEW_STATUSES || how == FEW_OF_BOTH || how == BAD_AND_FEW) s->statuses_len = s->calls_len - 1;
    if (how == FEW_ANSWERS || how == FEW_OF_BOTH) s->answers_len = s->calls_len - 1;
}

static size_t some_more(void)
{
    return random_below(2) ? 0 : 1 + random_below(40);
}

static void work_out(struct told *told, const struct book *b, const struct asked *s)
{
    size_t i;
    told->place = s->first;
    for (i = 0; i < s->calls_len; i++) {
        struct reply reply = book_step(b, s->calls[i], &told->place);
        told->statuses[i] = reply.status;
        told->answers[i] = session_entry(reply);
    }
}

/* `opening` is what opening the map gives; the book is NULL where that is a refusal. */
static void compare_asked(const uint8_t *map, size_t length, uint8_t opening, const struct book *b, const struct asked *s)
{
    static struct told told;
    uint8_t want = opening != 0 ? opening : session_refusal(s);
    if (want == 0) work_out(&told, b, s);
    if (compare_session(map, length, s, want, &told) && want == 0) compare_single(map, length, s, &told);
}

static void try_session(const uint8_t *map, size_t length, uint8_t opening, const struct book *b, size_t first, size_t count, int how)
{
    struct asked s = {first, calls, count, count + some_more(), count + some_more()};
    make_calls(count);
    harm(&s, how);
    compare_asked(map, length, opening, b, &s);
}

/* From place 1 in the order of the tour: at each place its numbers, moves there and back, and on to the next. */
static size_t make_tour(const struct book *b)
{
    size_t count = 0, place = 1, p;
    for (p = 1; p <= 2 * b->drawing->m; p++) {
        expect(place == p, "reference", "the session does not come to every place");
        calls[count++] = PMAP_CALL_POINT;
        calls[count++] = PMAP_CALL_AREA;
        calls[count++] = PMAP_CALL_CROSS;
        calls[count++] = PMAP_CALL_CROSS;
        calls[count++] = PMAP_CALL_TURN;
        calls[count++] = PMAP_CALL_TURN_BACK;
        calls[count++] = PMAP_CALL_TURN_BACK;
        calls[count++] = PMAP_CALL_TURN;
        calls[count] = marked(b->drawing, b->end_at[p]) ? PMAP_CALL_ALONG : PMAP_CALL_TURN;
        book_step(b, calls[count++], &place);
    }
    return count;
}

/* ---- what check.c and compare.c ask for ---- */

void compare_given(const uint8_t *map, size_t length, const struct given *given)
{
    static struct told told;
    struct asked s = {given->first, given->calls, given->count, given->count, given->count};
    memcpy(told.statuses, given->statuses, sizeof given->statuses);
    memcpy(told.answers, given->answers, sizeof given->answers);
    told.place = given->place;
    compare_session(map, length, &s, 0, &told);
}

void compare_sessions(const uint8_t *map, size_t length, uint8_t opening, const struct book *b)
{
    try_session(map, length, opening, b, first_number(b), random_below(30), WHOLE);
    try_session(map, length, opening, b, first_number(b), 1 + random_below(30), FEW_STATUSES + (int)random_below(BAD_LAST - FEW_STATUSES));
    try_session(map, length, opening, b, first_number(b), 1 + random_below(30), BAD_LAST + (int)random_below(HARMS - BAD_LAST));
}

void compare_long_sessions(const uint8_t *bytes, size_t length, size_t count)
{
    static struct drawing drawing;
    static struct book book;
    static struct loan map_loan;
    const uint8_t *map = lend(&map_loan, bytes, length);
    int how;
    expect(unpack(bytes, length, &drawing) == 0 && make_book(&drawing, &book), "reference", "the card does not open");
    for (how = WHOLE; how < HARMS; how++) try_session(map, length, 0, &book, 1 + random_below(2 * drawing.m), count, how);
    try_session(map, length, 0, &book, 2 * drawing.m + 1, count, WHOLE);
    expect(take_back(&map_loan, bytes), "pmap_session", "the card was changed");
}

void compare_turns(const uint8_t *bytes, size_t length, size_t first, size_t count)
{
    static struct drawing drawing;
    static struct book book;
    struct asked s = {first, calls, count, count, count};
    int sense;
    expect(unpack(bytes, length, &drawing) == 0 && make_book(&drawing, &book), "reference", "the card does not open");
    for (sense = ONWARDS; sense < SENSES; sense++) {
        make_turns(count, sense);
        compare_asked(bytes, length, 0, &book, &s);
    }
}

void compare_tour(const uint8_t *bytes, size_t length)
{
    static struct drawing drawing;
    static struct book book;
    struct asked s = {1, calls, 0, MOST_CALLS, MOST_CALLS};
    expect(unpack(bytes, length, &drawing) == 0 && make_book(&drawing, &book), "reference", "the card does not open");
    s.calls_len = make_tour(&book);
    compare_asked(bytes, length, 0, &book, &s);
}
