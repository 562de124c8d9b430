// Prints for a person: colours, and lines broken between words.
#define _POSIX_C_SOURCE 200809L
#include "out.h"

#include <stdarg.h>
#include <stdio.h>
#include <stdlib.h>
#include <string.h>
#include <unistd.h>

enum { TEXT = 2048 };

static bool coloured, muted;
static const char *const CODES[STYLES] = {"", "1", "2", "1;33", "32", "1;31"};

void out_begin(void)
{
    const char *no_color = getenv("NO_COLOR"), *terminal = getenv("TERM");
    coloured = isatty(STDOUT_FILENO) && (no_color == NULL || no_color[0] == '\0') &&
               (terminal == NULL || strcmp(terminal, "dumb") != 0);
}

void out_mute(bool mute)
{
    muted = mute;
}

static void print_in(style s, const char *form, va_list values)
{
    bool colour = coloured && s != PLAIN;
    if (colour)
        printf("\033[%sm", CODES[s]);
    vprintf(form, values);
    if (colour)
        printf("\033[0m");
}

void out(const char *form, ...)
{
    va_list values;
    va_start(values, form);
    if (!muted)
        vprintf(form, values);
    va_end(values);
}

void out_in(style s, const char *form, ...)
{
    va_list values;
    va_start(values, form);
    if (!muted)
        print_in(s, form, values);
    va_end(values);
}

void out_fault(const char *form, ...)
{
    va_list values;
    va_start(values, form);
    print_in(BAD, form, values);
    va_end(values);
}

static bool is_changed(const char *word, size_t length)
{
    while (length > 0 && (word[length - 1] == ',' || word[length - 1] == ';'))
        length--;
    return length > 0 && word[length - 1] == '*';
}

static void print_words(style s, int at, int hang, const char *text)
{
    bool first = true;
    for (const char *word = text + strspn(text, " "); *word != '\0'; word += strspn(word, " ")) {
        size_t length = strcspn(word, " ");
        if (!first && at + 1 + (int)length > COLUMNS) {
            out("\n%*s", hang, "");
            at = hang;
        } else if (!first) {
            out(" ");
            at++;
        }
        out_in(is_changed(word, length) ? CHANGED : s, "%.*s", (int)length, word);
        at += (int)length;
        word += length;
        first = false;
    }
}

void out_wrapped(style s, int at, int hang, const char *form, ...)
{
    char text[TEXT];
    va_list values;
    va_start(values, form);
    vsnprintf(text, sizeof text, form, values);
    va_end(values);
    print_words(s, at, hang, text);
    out("\n");
}
