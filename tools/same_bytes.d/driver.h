/* The parts of the driver. */
#ifndef DRIVER_H
#define DRIVER_H

#include <stdint.h>

/* Lists of calls on dictionaries, on memory that is no dictionary's, and calls of the leaf rules; so many times the usual number. */
void run_lists(unsigned times);
void run_foreign(unsigned times);
void run_leaves(unsigned times);

/* Starts the program anew: the bytes are compared after every call from this one on. Does not come back. */
void run_again_closely(uint64_t from_call);

#endif
