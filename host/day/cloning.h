// A request to clone an IKE SA (RFC 7791): what is sent, what the gateway decides, and what it comes to.
#ifndef DAY_CLONING_H
#define DAY_CLONING_H

#include "exchange.h"

// A rekey of an IKE SA, and what the scene expects: the answer, the type of the response's notification (0: no
// response), and each field of each place after it.
typedef struct cloning {
    uint64_t spi, new_spi;
    message request;
    uint8_t number;
    uint16_t payloads, offset, ordinal, notify;
    tables after;
} cloning;

// The initiator's rekey of its IKE SA: made-up SA, nonce and key exchange; with `clone` CLONE_IKE_SA, which the request
// writer wrote, in front of them.
message rekey_message(bool clone);

// A rekey that expects this refusal, with this notification as the response, and the tables as they stand.
cloning cloning_refused(const day *d, uint64_t spi, uint64_t new_spi, uint8_t number, uint16_t notify);

// A rekey with CLONE_IKE_SA that expects: done, the IKE record at `original` cloned to `place`.
cloning cloning_done(const day *d, size_t original, size_t place, uint64_t new_spi);

// Gives the number that the gateway answered with.
uint8_t play_cloning(day *d, const cloning *c);

#endif
