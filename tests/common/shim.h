/* The mistake that a library made of the reference makes: its number in the environment's FAULT, 0 for none. */
#ifndef SHIM_H
#define SHIM_H

int planted_fault(void);
#define FAULT planted_fault()

#endif
