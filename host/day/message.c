// Prints a message payload by payload. It only names what stands there; what it means is the library's to say.
#include "message.h"

#include <stdio.h>
#include <stdlib.h>
#include <string.h>

#include "out.h"
#include "unmavreth_words.h"

enum { HEADER = 4, NOTIFY_HEADER = 8, CRITICAL = 0x80, OCTETS_A_LINE = 12, SOME_OCTETS = 8, NAME = 40 };

message message_of(uint8_t first, const uint8_t *octets, size_t length)
{
    message m = {.first = first, .length = length};
    memcpy(m.octets, octets, length);
    return m;
}

message message_with_cookie(const uint8_t *cookie, size_t length)
{
    static const unmavreth_ask nothing_else;
    static const unmavreth_pair no_pair;
    static const unmavreth_addresses_list no_addresses;
    message m = {0};
    unmavreth_written written = unmavreth_write(nothing_else, no_pair, no_addresses, cookie, 0, cookie, 0, cookie,
                                                length, m.octets, sizeof m.octets);
    if (written.number != UNMAVRETH_DONE) {
        fprintf(stderr, "day: the request writer answers %u\n", written.number);
        exit(1);
    }
    m.first = written.first;
    m.length = written.length;
    return m;
}

void print_octets(const uint8_t *octets, size_t length)
{
    for (size_t i = 0; i < length; i++)
        out(i == 0 ? "%02x" : " %02x", octets[i]);
}

void print_some_octets(const uint8_t *octets, size_t length)
{
    size_t shown = length <= SOME_OCTETS ? length : SOME_OCTETS;
    print_octets(octets, shown);
    if (shown < length)
        out(" ..");
}

static unsigned number_at(const uint8_t *octets)
{
    return octets[0] * 256u + octets[1];
}

static void name_payload(char name[NAME], uint8_t type, const uint8_t *octets, size_t size)
{
    if (type == UNMAVRETH_NOTIFY_PAYLOAD && size >= NOTIFY_HEADER) {
        unsigned notify = number_at(octets + 6);
        const char *known = unmavreth_notify_words((uint16_t)notify);
        if (known != NULL)
            snprintf(name, NAME, "%s", known);
        else
            snprintf(name, NAME, "unknown notification %u", notify);
    } else if (unmavreth_payload_words(type) != NULL) {
        snprintf(name, NAME, "%s", unmavreth_payload_words(type));
    } else if (octets[1] & CRITICAL) {
        snprintf(name, NAME, "critical payload, type %u", type);
    } else {
        snprintf(name, NAME, "payload, type %u", type);
    }
}

static void print_payload(size_t at, const char *name, const uint8_t *octets, size_t size)
{
    for (size_t i = 0; i < size; i += OCTETS_A_LINE) {
        size_t left = size - i;
        if (i == 0)
            out("    %4zu  %-30s", at, name);
        else
            out("%*s", 40, "");
        print_octets(octets + i, left < OCTETS_A_LINE ? left : OCTETS_A_LINE);
        out("\n");
    }
}

void print_message(const message *m)
{
    uint8_t type = m->first;
    size_t at = 0;
    while (at < m->length) {
        const uint8_t *octets = m->octets + at;
        size_t left = m->length - at;
        size_t size = left < HEADER ? 0 : number_at(octets + 2);
        if (type == 0 || size < HEADER || size > left) {
            print_payload(at, "not a whole payload", octets, left);
            return;
        }
        char name[NAME];
        name_payload(name, type, octets, size);
        print_payload(at, name, octets, size);
        type = octets[0];
        at += size;
    }
}
