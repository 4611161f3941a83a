/* The parts of the comparison. Each compares what its name in check.c says. */
#ifndef PARTS_H
#define PARTS_H

/* Set by `check small`: fewer drawings, and small ones. */
extern int small;

/* given.c: what is known without a drawing by chance */
void worked_examples(void);
void lengths(void);
void no_borders(void);
void one_border(void);
void two_borders(void);
void more_borders(void);
void rooms(void);

/* crossings.c: from tours */
void crossings(void);

/* maps.c: from bytes */
void small_maps(void);
void random_maps(void);
void damaged_maps(void);
void headers(void);

/* grown.c: from drawings by chance */
void broken(void);
void handles(void);
void good_drawings(void);
void large_drawings(void);

/* marks.c: finding marks */
void known_marks(void);
void grown_marks(void);
void scattered_marks(void);
void parted_marks(void);
void large_marks(void);

void every_status(void);

#endif
