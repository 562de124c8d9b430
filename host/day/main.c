// A day of an initiator against the gateway: both ends run through the library, and each scene is printed.
// day [SCENE] [--trace FILE]: a scene alone, those before it unprinted; the calls as a trace to a file. ./demo runs it.
#include <stdio.h>
#include <string.h>

#include "out.h"
#include "scenes.h"

typedef struct scene {
    const char *name, *brief, *story;
    void (*play)(day *d);
} scene;

#define SCENE(name, brief, story) {#name, brief, story, play_##name},
static const scene SCENES[] = {
#include "scenes.def"
};
#undef SCENE

enum { COUNT = sizeof SCENES / sizeof SCENES[0] };

// What a scene came to.
typedef struct result {
    checks checks;
    char outcome[OUTCOME];
} result;

static void print_opening(void)
{
    out_in(STRONG, "A day of an initiator and its gateway\n\n");
    out("What will happen (./demo SCENE plays one):\n\n");
    for (size_t i = 0; i < COUNT; i++) {
        out("  %2zu ", i + 1);
        out_in(STRONG, "%-12s", SCENES[i].name);
        out("%s\n", SCENES[i].brief);
    }
    out("\n");
    out_wrapped(PLAIN, 0, 0,
                "Both ends run: the initiator's end writes requests and assesses responses, the gateway handles the "
                "octets and keeps the tables. The requests of unknown, malformed and critical, and some of clone, are "
                "laid out by hand, since the request writer never writes such. Our initiator's IKE SPI is 0a11ce0000000001, the "
                "neighbour's is 0b0b000000000002. A pair is as in a packet from the peer: source > destination. In the "
                "tables, update and list are marks, the message IDs of the newest update received and of the list "
                "kept, unknown is the tally, and check is the message ID of the gateway's request that checks return "
                "routability, while it is under way. The records are operator A's, but those that say operator B. In "
                "front of each payload stands its offset. NAT detection values are "
                "the host's to compute; here they are fixed and made up: 10 11 12 .. and 30 31 32 .. of the gateway, "
                "50 51 52 .. and 70 71 72 .. of the initiator.");
    out("\n");
}

static void print_head(size_t at)
{
    char head[COLUMNS + 1];
    int used = snprintf(head, sizeof head, "--- %zu of %d: %s ", at + 1, (int)COUNT, SCENES[at].name);
    memset(head + used, '-', sizeof head - 1 - (size_t)used);
    head[COLUMNS] = '\0';
    out_in(STRONG, "%s\n", head);
    out_wrapped(PLAIN, 0, 0, "%s", SCENES[at].story);
    out("\n");
}

static void print_checks(checks c)
{
    if (c.failed == 0)
        out_in(GOOD, "  All %u checks of this scene hold.\n\n", c.made);
    else
        out_fault("  %u of %u checks of this scene do not hold.\n\n", c.failed, c.made);
}

static result play_scene(day *d, size_t at)
{
    result r;
    checks since = d->checks;
    tables before = d->gateway.tables;
    d->outcome[0] = '\0';
    print_head(at);
    SCENES[at].play(d);
    print_tables(&before, &d->gateway.tables);
    r.checks = checks_since(&d->checks, since);
    memcpy(r.outcome, d->outcome, sizeof r.outcome);
    print_checks(r.checks);
    return r;
}

// The scenes up to `last`, those before `first` unprinted.
static void play_scenes(day *d, size_t first, size_t last, result results[COUNT])
{
    for (size_t i = 0; i <= last; i++) {
        out_mute(i < first);
        results[i] = play_scene(d, i);
    }
}

static void print_trace(day *d)
{
    const trace *t = &d->gateway.trace;
    unsigned read = trace_read_back(t);
    check_number(&d->checks, "how many entries of the trace read back", read, t->entries);
    out_wrapped(PLAIN, 0, 0,
                "The day's calls on the tables and the policies, as a trace: %u entries in %zu octets, %u read back.",
                t->entries, t->length, read);
    out("\n");
}

static void print_results(size_t first, size_t last, const result results[COUNT])
{
    out_in(STRONG, "  scene       checks    outcome\n");
    for (size_t i = first; i <= last; i++) {
        char checks[16];
        unsigned failed = results[i].checks.failed;
        snprintf(checks, sizeof checks, failed == 0 ? "%u hold" : "%u FAIL",
                 failed == 0 ? results[i].checks.made : failed);
        out("  %-12s", SCENES[i].name);
        out_in(failed == 0 ? GOOD : BAD, "%-10s", checks);
        out_wrapped(PLAIN, 24, 24, "%s", results[i].outcome);
    }
    out("\n");
}

static int print_end(const checks *c, const char *what)
{
    if (c->failed != 0) {
        out_fault("%u of %u checks do not hold.\n", c->failed, c->made);
        return 1;
    }
    out_in(GOOD, "%s went as expected: %u checks, all hold.\n", what, c->made);
    return 0;
}

static int play_day(const char *file)
{
    static day d;
    static result results[COUNT];
    d.gateway = gateway_new();
    print_opening();
    play_scenes(&d, 0, COUNT - 1, results);
    print_trace(&d);
    print_results(0, COUNT - 1, results);
    if (file != NULL && !trace_save(&d.gateway.trace, file)) {
        fprintf(stderr, "demo: cannot write %s\n", file);
        return 2;
    }
    return print_end(&d.checks, "The day");
}

static int play_one(const char *name)
{
    static day d;
    static result results[COUNT];
    size_t at = 0;
    while (at < COUNT && strcmp(SCENES[at].name, name) != 0)
        at++;
    if (at == COUNT) {
        fprintf(stderr, "demo: no scene '%s'\n", name);
        return 2;
    }
    d.gateway = gateway_new();
    play_scenes(&d, at, at, results);
    print_results(at, at, results);
    return print_end(&d.checks, at == 0 ? "The scene" : "The scene and those before it");
}

int main(int count, char **arguments)
{
    out_begin();
    if (count == 1)
        return play_day(NULL);
    if (count == 3 && strcmp(arguments[1], "--trace") == 0)
        return play_day(arguments[2]);
    if (count == 2)
        return play_one(arguments[1]);
    fprintf(stderr, "usage: day [SCENE | --trace FILE]\n");
    return 2;
}
