// A text that words are added to.
#ifndef DAY_TEXT_H
#define DAY_TEXT_H

#include <stddef.h>

// Adds words to a text of so much room, with `between` in front of them if it is not empty; what has no room is left
// off.
__attribute__((format(printf, 4, 5))) void text_add(char *text, size_t room, const char *between, const char *form,
                                                    ...);

#endif
