// The initiator's end: it writes requests and assesses the responses to them.
#ifndef DAY_INITIATOR_H
#define DAY_INITIATOR_H

#include "message.h"

// What the initiator sends: the message, and the cookie in it (0 octets: none), which it keeps to assess the response.
typedef struct sent {
    message request;
    uint8_t cookie[COOKIE_OCTETS];
    size_t cookie_octets;
} sent;

// A request with what is asked for; with `cookie` its last octet is the message ID, so that no two are the same.
sent initiator_write(unmavreth_ask ask, unmavreth_pair pair, const unmavreth_addresses_list *addresses, bool cookie,
                   uint32_t id);

unmavreth_assessment initiator_assess(const sent *s, const message *response);

// The response to a check of the gateway's: its COOKIE2, copied.
message initiator_answer(const message *check);

#endif
