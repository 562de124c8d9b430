// One exchange of the day: a request reaches the gateway, its response goes back to the initiator, and all is printed.
#ifndef DAY_EXCHANGE_H
#define DAY_EXCHANGE_H

#include "check.h"
#include "initiator.h"
#include "gateway.h"
#include "text.h"

// The SPIs of the day: our initiator's IKE record with its two IPsec records, and the neighbour's with one.
#define OUR_SPI UINT64_C(0x0a11ce0000000001)
#define OUR_IPSEC_1 UINT32_C(0xc1a50001)
#define OUR_IPSEC_2 UINT32_C(0xc1a50002)
#define NEIGHBOUR_SPI UINT64_C(0x0b0b000000000002)
#define NEIGHBOUR_IPSEC UINT32_C(0xc1a50003)
#define THIRD_SPI UINT64_C(0x0ca7e00000000003) // of an initiator that comes when these two have left
#define CELLULAR_SPI UINT64_C(0x0e1f000000000006) // of the clone that a fifth has on its cellular network
enum { FIFTH_PEER = 5 };
enum { OUR_PLACE = 0, NEIGHBOUR_PLACE = 1, OUTCOME = 384 };

typedef struct day {
    gateway gateway;
    checks checks;
    sent held_up;          // a request that is on its way for longer than the next one
    uint32_t own_id;       // the message ID of the gateway's next request to our initiator
    own_check under_way;   // the gateway's last check
    char outcome[OUTCOME]; // what the scene came to, for the table at the day's end
} day;

// Adds words to the scene's outcome.
#define add_outcome(d, ...) text_add((d)->outcome, OUTCOME, "; ", __VA_ARGS__)

// A request with its packet and message ID, and what the scene expects: the answer, what the initiator's end is told,
// and each field of each place after it.
typedef struct exchange {
    uint64_t spi;
    uint32_t id;
    unmavreth_pair packet;
    sent sent;
    own_check check; // lent with the request: what a check would have
    uint8_t number, update, list, outcome;
    uint16_t offset, ordinal, payloads;
    tables after;
} exchange;

// An exchange of our initiator's that expects: done, no update, no list, so many payloads, accepted, the tables as they
// stand.
exchange exchange_new(const day *d, uint32_t id, unmavreth_pair packet, uint16_t payloads);

// Expects the update to be applied to the IKE record at this place, which keeps the check that was lent. No IPsec
// record moves.
void expect_applied(exchange *x, size_t ike_place);

void play(day *d, const exchange *x);

// What an assessment says, of an end by its name; and a message, of which this is said.
void print_assessment(const char *whose, const unmavreth_assessment *a);
void print_described(const char *what, const message *m);

#endif
