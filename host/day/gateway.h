// The gateway: what it owns and lends to the library, and the calls that it makes.
#ifndef DAY_GATEWAY_H
#define DAY_GATEWAY_H

#include "message.h"
#include "tables.h"
#include "trace.h"

// A return routability check of the gateway's: the message ID of its request, and the cookie in it.
typedef struct own_check {
    uint32_t id;
    uint8_t cookie[COOKIE_OCTETS];
} own_check;

typedef struct gateway {
    tables tables;
    unmavreth_policies policies;
    uint8_t operator_id; // whose calls are made now: A's, but in the scenes of two operators
    uint8_t nat_source[UNMAVRETH_NAT_OCTETS];
    uint8_t nat_destination[UNMAVRETH_NAT_OCTETS];
    trace trace; // the calls below but gateway_accepts, which changes nothing
} gateway;

// Empty tables, empty policies and an empty trace, which are all zeros, and NAT detection values.
gateway gateway_new(void);

// Each names the operator whose calls are made now, but the first, of which the opening says it.
uint8_t gateway_open(gateway *g, const unmavreth_opening *opening);
uint8_t gateway_open_ipsec(gateway *g, uint32_t spi, uint64_t owner);
uint8_t gateway_close_ike(gateway *g, uint64_t spi);
uint8_t gateway_close_ipsec(gateway *g, uint32_t spi);
uint8_t gateway_set_policy(gateway *g, uint16_t count, const unmavreth_rules *rules);
bool gateway_accepts(const gateway *g, unmavreth_pair pair);

uint8_t gateway_mark_deletion(gateway *g, uint64_t spi);

// Handles a request, with what a check of ours would have. `kept` says whether the octets past the response stayed as
// they were.
unmavreth_reply gateway_answer(gateway *g, uint64_t spi, uint32_t id, unmavreth_pair packet, const message *request,
                               const own_check *check, message *response, bool *kept);

// The request that checks return routability: its cookie, and nothing else.
message gateway_write_check(const own_check *check);

// Decides the response to a check.
unmavreth_assessment gateway_end_check(gateway *g, uint64_t spi, uint32_t id, const message *response);

// Decides a rekey of an IKE SA that may be a clone. `kept` as above.
unmavreth_clone_reply gateway_clone(gateway *g, uint64_t spi, uint64_t new_spi, const message *request,
                                    message *response, bool *kept);

#endif
