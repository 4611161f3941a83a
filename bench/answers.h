/* Calls made of an answer, once for each way to hold a map: `held` is what a call builds from the bytes, `check` builds it and
   gives the status of opening. It has m, n and places. In an answer x is what was built, p the position and k the number. */
#ifndef ANSWERS_H
#define ANSWERS_H

#define OPEN_CALL(name, held, check)                                                               \
    static uint8_t name(const uint8_t *map, size_t length, uint16_t *m, uint16_t *n)               \
    {                                                                                              \
        held x;                                                                                    \
        uint8_t status = check(map, length, &x);                                                   \
        if (status == 0) {                                                                         \
            *m = (uint16_t)x.m;                                                                    \
            *n = (uint16_t)x.n;                                                                    \
        }                                                                                          \
        return status;                                                                             \
    }

#define PLACE_CALL(name, held, check, answer)                                                      \
    static uint8_t name(const uint8_t *map, size_t length, size_t place, uint16_t *out)            \
    {                                                                                              \
        held x;                                                                                    \
        uint8_t status = check(map, length, &x);                                                   \
        size_t p = place - 1;                                                                      \
        if (status == 0 && (place == 0 || place > x.places))                                       \
            status = 13;                                                                           \
        if (status == 0)                                                                           \
            *out = (uint16_t)(answer);                                                             \
        return status;                                                                             \
    }

/* `to` is the position that a turn comes to, and `round` says of it, as q, whether the turn has gone round. */
#define TURN_CALL(name, held, check, to, round)                                                    \
    static uint8_t name(const uint8_t *map, size_t length, size_t place, uint16_t *out,            \
                        uint8_t *gone_round)                                                       \
    {                                                                                              \
        held x;                                                                                    \
        uint8_t status = check(map, length, &x);                                                   \
        size_t p = place - 1, q;                                                                   \
        if (status == 0 && (place == 0 || place > x.places))                                       \
            status = 13;                                                                           \
        if (status == 0) {                                                                         \
            q = (to);                                                                              \
            *out = (uint16_t)(q + 1);                                                              \
            *gone_round = (round);                                                                 \
        }                                                                                          \
        return status;                                                                             \
    }

#define CELL_CALL(name, held, check, cells, refusal, answer)                                       \
    static uint8_t name(const uint8_t *map, size_t length, size_t k, uint16_t *out)                \
    {                                                                                              \
        held x;                                                                                    \
        uint8_t status = check(map, length, &x);                                                   \
        if (status == 0 && (k == 0 || k > (cells)))                                                \
            status = refusal;                                                                      \
        if (status == 0)                                                                           \
            *out = (uint16_t)(x.m == 0 ? 0 : (answer));                                            \
        return status;                                                                             \
    }

#endif
