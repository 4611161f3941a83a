/* The calls on map bytes about one number, each beside the book's answer. */
#include "calls.h"

#include "pmap.h"

const struct call of_place[OF_PLACE] = {
    [PMAP_CALL_CROSS] = {"pmap_cross", pmap_cross, NULL, book_cross},
    [PMAP_CALL_TURN] = {"pmap_turn", NULL, pmap_turn, book_turn},
    [PMAP_CALL_TURN_BACK] = {"pmap_turn_back", NULL, pmap_turn_back, book_turn_back},
    [PMAP_CALL_ALONG] = {"pmap_along", pmap_along, NULL, book_along},
    [PMAP_CALL_POINT] = {"pmap_point", pmap_point, NULL, book_point},
    [PMAP_CALL_AREA] = {"pmap_area", pmap_area, NULL, book_area},
};

const struct call of_point[OF_POINT] = {
    {"pmap_point_first", pmap_point_first, NULL, book_point_first}, {"pmap_degree", pmap_degree, NULL, book_degree},
};

const struct call of_area[OF_AREA] = {
    {"pmap_area_first", pmap_area_first, NULL, book_area_first}, {"pmap_sides", pmap_sides, NULL, book_sides},
    {"pmap_neighbours", pmap_neighbours, NULL, book_neighbours},
};

struct reply reply_of(uint8_t status, const uint16_t cells[3])
{
    struct reply r = {status, status == 0 ? cells[1] : 0, 0};
    if ((status != 0 && cells[1] != OLD) || cells[0] != FENCE || cells[2] != FENCE) r.value = OLD;
    return r;
}

struct reply library_reply(const struct call *call, const uint8_t *map, size_t length, size_t number)
{
    uint16_t cells[3] = {FENCE, OLD, FENCE};
    uint8_t signs[3] = {FENCE_SIGN, OLD_SIGN, FENCE_SIGN};
    struct reply r;
    if (call->turn == NULL) return reply_of(call->library(map, length, number, &cells[1]), cells);
    r = reply_of(call->turn(map, length, number, &cells[1], &signs[1]), cells);
    if (r.status == 0) r.sign = signs[1];
    else if (signs[1] != OLD_SIGN) r.value = OLD;
    if (signs[0] != FENCE_SIGN || signs[2] != FENCE_SIGN) r.value = OLD;
    return r;
}
