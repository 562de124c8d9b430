// What the day prints: within 80 columns, in colour on a terminal, and not at all for a scene that is played unprinted.
#ifndef DAY_OUT_H
#define DAY_OUT_H

#include <stdbool.h>

enum { COLUMNS = 80 };

typedef enum style { PLAIN, STRONG, FAINT, CHANGED, GOOD, BAD, STYLES } style;

// Colours are used from now on if standard output is a terminal, unless NO_COLOR is set (https://no-color.org).
void out_begin(void);

void out_mute(bool muted);

__attribute__((format(printf, 1, 2))) void out(const char *form, ...);
__attribute__((format(printf, 2, 3))) void out_in(style s, const char *form, ...);

// A fault is printed even where nothing else is.
__attribute__((format(printf, 1, 2))) void out_fault(const char *form, ...);

// Words up to the last column, the lines after the first one indented by `hang`; `at` columns are already used. A word
// that ends in a star is one that changed.
__attribute__((format(printf, 4, 5))) void out_wrapped(style s, int at, int hang, const char *form, ...);

#endif
