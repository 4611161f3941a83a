/* The independent account of a program. Each test of a program has its own, written from the documents alone. */
#ifndef ACCOUNT_H
#define ACCOUNT_H

#include "bytes.h"

/* What the program prints for this input. With a fault that is not 0, a wrong account of it: `fault == 1`, .. in its source. */
void account(const struct bytes *input, struct bytes *output, int fault);

#endif
