// Each call of the library once or more, on what makes it run most of its code: for measuring its stack, and for
// stepping through it.
#ifndef EVERY_H
#define EVERY_H

#include <stddef.h>

typedef struct every_call {
    const char *name;
    void (*prepare)(void); // what it is lent, anew
    void (*run)(void);     // the call alone
    unsigned expected;     // the number that it gives: with another, little may have been run
} every_call;

extern const every_call every[];
extern const size_t every_count;

// What the last call gave.
extern unsigned number;

#endif
