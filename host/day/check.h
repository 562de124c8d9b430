// What the day expects, checked aloud: a difference is printed where it is found, and the program then fails.
#ifndef DAY_CHECK_H
#define DAY_CHECK_H

#include <stdbool.h>

typedef struct checks {
    unsigned made;
    unsigned failed;
} checks;

void check_number(checks *c, const char *what, unsigned long is, unsigned long expected);
void check_holds(checks *c, const char *what, bool holds);

// The checks that were made after `since`.
checks checks_since(const checks *c, checks since);

#endif
