/* A plain strict reader in C, which is timed beside the proved calls. */
#ifndef PLAIN_H
#define PLAIN_H

#include <stddef.h>

/* Reads all numbers of all sets 58 of a file. Gives how many, or -1 where the file is not good or the room too short. */
long read_plainly(const char *file, size_t count, double *out, size_t room);

#endif
