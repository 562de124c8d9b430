// A check of a test program: says which one does not hold, and where, and ends the program.
#ifndef SNIPPETS_HOLDS_H
#define SNIPPETS_HOLDS_H

#include <stdio.h>
#include <stdlib.h>

#define HOLDS(condition)                                                          \
    do {                                                                          \
        if (!(condition)) {                                                       \
            fprintf(stderr, "%s:%d: not so: %s\n", __FILE__, __LINE__, #condition); \
            exit(1);                                                              \
        }                                                                         \
    } while (0)

#endif
