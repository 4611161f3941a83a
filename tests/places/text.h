/* The text of a drawing, as `places` reads it. */
#ifndef TEXT_H
#define TEXT_H

#include "bytes.h"
#include "reference.h"

void write_drawing(const struct drawing *d, struct bytes *text);

#endif
