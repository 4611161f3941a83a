/* Tariffs by hand: factors known without the account; every limit, the lengths, and the order of the checks. */
#ifndef TARIFFS_H
#define TARIFFS_H

/* Maps of up to 2,048 borders with tariffs whose factors are known by hand. */
void known_factors(void);

/* Each number about the bounds and each that is none, in each field of each area; each kind that is none. */
void tariff_limits(void);

/* Lists that are too short or too long. */
void tariff_lengths(void);

/* Refusals that apply at once: given is the first in the order 8, 20, 9 to 12, 15, 18, 19. */
void factor_refusals(void);

/* Lists whose entries that are not used were never written: valgrind sees if anything depends on them. */
void unwritten_values(void);

#endif
