/* Turning all the way round: turns known by hand, long sessions of turns, and once round every point. */
#ifndef ROUNDS_H
#define ROUNDS_H

#include <stddef.h>

/* Small maps, every turn and turn back by hand. */
void known_turns(void);

/* Sessions of `count` turns in both senses on maps of so many borders, at points of degree 1, of twice as many, and between. */
void long_turns(size_t borders, size_t count);

/* `count` random cards of up to `most` borders: as many turns as a point has places lead back, and exactly one of them has the sign, in
   both senses; from the first place of each point, and from others by chance. */
void random_rounds(size_t count, size_t most);

#endif
