/*
 * corner - how an agent's box steps round a corner: once round a point and back again, in one session.
 *
 *     corner CARD POINT
 *
 * CARD is a file with the bytes of a packed map, POINT a point number from 1. To standard output goes a line with the number of
 * the point's places, which is its degree, and with its first place, where the steps begin; then one line for each turn, and one
 * for each turn back: the place it comes to, the area there, and whether it has gone round. What is wrong with a card or a number,
 * and that the output can't be written, goes to standard error, and the exit status is then 1; it is 2 if the box was not asked
 * properly.
 */
#include "box.h"

/* What is asked at each step: a turn or a turn back, and the area of the place it comes to. */
enum { STEP, THERE, OF_STEP };

static void put_steps(uint8_t *calls, uint8_t turn, size_t count)
{
    size_t i;

    for (i = 0; i < count; i++) {
        calls[OF_STEP * i + STEP] = turn;
        calls[OF_STEP * i + THERE] = PMAP_CALL_AREA;
    }
}

static void say_steps(const uint16_t *answers, const char *turn, size_t count)
{
    size_t i;

    for (i = 0; i < count; i++) {
        uint16_t step = answers[OF_STEP * i + STEP], area = answers[OF_STEP * i + THERE];

        printf("%s: place %u, area %u%s\n", turn, (unsigned)step & ~PMAP_GONE_ROUND, (unsigned)area,
               step & PMAP_GONE_ROUND ? ", gone round" : "");
    }
}

int main(int argc, char **argv)
{
    static struct card card;
    static uint8_t calls[MOST_CALLS];
    static uint16_t answers[MOST_CALLS];
    const char *path;
    size_t point, once;
    uint16_t m, n, first, degree;

    box_name = "corner";
    point = read_question(argc, argv, "corner CARD POINT", "a point", &card);
    path = argv[1];

    stop_if_refused(path, pmap_open(card.bytes, card.length, &m, &n));
    stop_if_refused(path, pmap_point_first(card.bytes, card.length, point, &first));
    stop_if_refused(path, pmap_degree(card.bytes, card.length, point, &degree));
    once = OF_STEP * (size_t)degree;
    put_steps(calls, PMAP_CALL_TURN, degree);
    put_steps(calls + once, PMAP_CALL_TURN_BACK, degree);
    run_session(path, &card, first, calls, 2 * once, answers);

    printf("point %zu of %u, degree: %u, first place: %u\n", point, (unsigned)n, (unsigned)degree, (unsigned)first);
    say_steps(answers, "turn", degree);
    say_steps(answers + once, "turn back", degree);
    if (degree == 0)
        printf("the map has no borders\n");
    return finish_output();
}
