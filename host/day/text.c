// Adds words to a text.
#include "text.h"

#include <stdarg.h>
#include <stdio.h>
#include <string.h>

void text_add(char *text, size_t room, const char *between, const char *form, ...)
{
    size_t used = strlen(text);
    if (used > 0)
        snprintf(text + used, room - used, "%s", between);
    used = strlen(text);
    va_list values;
    va_start(values, form);
    vsnprintf(text + used, room - used, form, values);
    va_end(values);
}
