/* Neighbours counted once: numbers known by hand, and every area of maps by chance. */
#ifndef NEIGHBOURS_H
#define NEIGHBOURS_H

#include <stddef.h>

/* Maps with sides and neighbours known by hand, up to 2,048 borders. Of the large ones every area is compared only if asked for. */
void known_neighbours(int every_area);

/* So many maps of up to `most` borders by chance: every area, and what the single calls say of each of its sides. */
void random_neighbours(size_t count, size_t most);

#endif
