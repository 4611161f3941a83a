/*
 * A program that reads standard input, tried beside its independent account: what both print is compared byte for byte. A try
 * is a process, and takes about a millisecond.
 */
#ifndef PROGRAM_H
#define PROGRAM_H

#include "bytes.h"

/* What the next try is to read. */
extern struct bytes input;

/* Takes the words of `differential PROGRAM FOLDER [small]`; FOLDER is for the inputs. Gives 1 if fewer tries are asked for. */
int begin_tries(int argc, char **argv);

/* One try: the input comes from a file, or through a pipe that fills slowly. After a few differences it ends the comparison. */
void try(const char *words, int slowly);

/* Prints the time of the program on the input, the least of several runs. */
void report_time(const char *words);

/* Prints 'N passed, M failed', and gives what the program is to exit with: 0 only if M is 0. */
int end_tries(void);

#endif
