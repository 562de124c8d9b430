// A decrypted message: the type of its first payload, and its octets; printed with each payload on its own line.
#ifndef DAY_MESSAGE_H
#define DAY_MESSAGE_H

#include "unmavreth.h"

enum { COOKIE_OCTETS = 8 }; // of each cookie of the day

typedef struct message {
    uint8_t first;
    size_t length;
    uint8_t octets[UNMAVRETH_REQUEST_ROOM];
} message;

// A message laid out by hand, for what the request writer never writes.
message message_of(uint8_t first, const uint8_t *octets, size_t length);

// A message with this COOKIE2 and nothing else, by the request writer: a check, or the response to one.
message message_with_cookie(const uint8_t *cookie, size_t length);

void print_octets(const uint8_t *octets, size_t length);

// No more than the first eight of them.
void print_some_octets(const uint8_t *octets, size_t length);

void print_message(const message *m);

#endif
