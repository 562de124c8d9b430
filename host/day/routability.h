// Return routability checks of the gateway's: what is sent, what comes back, and what it comes to.
#ifndef DAY_ROUTABILITY_H
#define DAY_ROUTABILITY_H

#include "exchange.h"

// The check that an applied update asks for, written and sent.
message send_check(day *d, const own_check *check);

// A response to a check, and what the scene expects: the answer, and each field of each place after it.
typedef struct checking {
    uint64_t spi;
    uint32_t id;
    message response;
    uint8_t number, outcome;
    tables after;
} checking;

// A response to our initiator's check that expects: done, accepted, the tables as they stand.
checking checking_new(const day *d, const own_check *check, message response);

void play_response(day *d, const checking *c);

#endif
