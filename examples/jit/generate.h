/* Makes programs by chance, each from its number alone. */
#ifndef GENERATE_H
#define GENERATE_H

#include <stdint.h>

/* The text of a program that ends, in memory that the caller frees. */
char *generate(uint64_t number);

#endif
