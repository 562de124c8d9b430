// Addresses and pairs: the library takes sixteen octets each, IPv4 in the first four with zeros after.
#define _POSIX_C_SOURCE 200809L
#include "address.h"

#include <arpa/inet.h>
#include <stdio.h>
#include <stdlib.h>
#include <string.h>

static int system_family(uint8_t family)
{
    return family == 4 ? AF_INET : AF_INET6;
}

unmavreth_address address(const char *text)
{
    unmavreth_address a = {0};
    a.family = strchr(text, ':') == NULL ? 4 : 6;
    if (inet_pton(system_family(a.family), text, a.octets) != 1) {
        fprintf(stderr, "day: not an address: %s\n", text);
        exit(2);
    }
    return a;
}

unmavreth_pair pair_of(const char *source, uint16_t source_port, const char *destination, uint16_t destination_port)
{
    unmavreth_address from = address(source);
    unmavreth_address to = address(destination);
    unmavreth_pair pair = {.family = from.family, .source_port = source_port, .destination_port = destination_port};
    memcpy(pair.source, from.octets, sizeof pair.source);
    memcpy(pair.destination, to.octets, sizeof pair.destination);
    return pair;
}

bool same_address(const unmavreth_address *a, const unmavreth_address *b)
{
    return a->family == b->family && memcmp(a->octets, b->octets, sizeof a->octets) == 0;
}

// Field by field: a pair has an octet of padding, of which the library promises nothing.
bool same_pair(const unmavreth_pair *a, const unmavreth_pair *b)
{
    return a->family == b->family && memcmp(a->source, b->source, sizeof a->source) == 0 &&
           memcmp(a->destination, b->destination, sizeof a->destination) == 0 && a->source_port == b->source_port &&
           a->destination_port == b->destination_port;
}

void address_text(char text[ADDRESS_TEXT], uint8_t family, const uint8_t octets[16])
{
    if (inet_ntop(system_family(family), octets, text, ADDRESS_TEXT) == NULL)
        snprintf(text, ADDRESS_TEXT, "?");
}

void pair_text(char text[PAIR_TEXT], const unmavreth_pair *pair)
{
    char source[ADDRESS_TEXT], destination[ADDRESS_TEXT];
    address_text(source, pair->family, pair->source);
    address_text(destination, pair->family, pair->destination);
    const char *form = pair->family == 4 ? "%s:%u > %s:%u" : "[%s]:%u > [%s]:%u";
    snprintf(text, PAIR_TEXT, form, source, (unsigned)pair->source_port, destination, (unsigned)pair->destination_port);
}
