// Checks what the day expects, and counts.
#include "check.h"

#include "out.h"

void check_number(checks *c, const char *what, unsigned long is, unsigned long expected)
{
    c->made++;
    if (is != expected) {
        c->failed++;
        out_fault("  NOT AS EXPECTED: %s is %lu, not %lu\n", what, is, expected);
    }
}

void check_holds(checks *c, const char *what, bool holds)
{
    c->made++;
    if (!holds) {
        c->failed++;
        out_fault("  NOT AS EXPECTED: %s\n", what);
    }
}

checks checks_since(const checks *c, checks since)
{
    return (checks){.made = c->made - since.made, .failed = c->failed - since.failed};
}
