/* Repeatable random numbers (splitmix64). */
#ifndef RANDOM_H
#define RANDOM_H

#include <stddef.h>
#include <stdint.h>

/* The numbers from here on follow from the seed. */
void random_from(uint64_t seed);

uint64_t random_number(void);

/* From low to high, both included. */
size_t within(size_t low, size_t high);

/* Below n, which is not 0. */
size_t below(size_t n);

int chance(size_t percent);

/* One of the elements of an array. */
#define ONE_OF(array) ((array)[below(sizeof(array) / sizeof *(array))])

#endif
