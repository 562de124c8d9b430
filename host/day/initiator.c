// The initiator's end: the request writer and what a response comes to.
#include "initiator.h"

#include <stdio.h>
#include <stdlib.h>
#include <string.h>

#include "nat.h"

sent initiator_write(unmavreth_ask ask, unmavreth_pair pair, const unmavreth_addresses_list *addresses, bool cookie,
                   uint32_t id)
{
    sent s = {.cookie = {0xc0, 0x01, 0xca, 0xfe}, .cookie_octets = cookie ? COOKIE_OCTETS : 0};
    s.cookie[COOKIE_OCTETS - 1] = (uint8_t)id;
    uint8_t source[UNMAVRETH_NAT_OCTETS], destination[UNMAVRETH_NAT_OCTETS];
    made_up_nat_value(source, 0x50);
    made_up_nat_value(destination, 0x70);
    unmavreth_written written =
        unmavreth_write(ask, pair, *addresses, source, sizeof source, destination, sizeof destination, s.cookie,
                        s.cookie_octets, s.request.octets, sizeof s.request.octets);
    if (written.number != UNMAVRETH_DONE) {
        fprintf(stderr, "day: the request writer answers %u\n", written.number);
        exit(1);
    }
    s.request.first = written.first;
    s.request.length = written.length;
    return s;
}

message initiator_answer(const message *check)
{
    unmavreth_reading reading = unmavreth_read(check->first, check->octets, check->length);
    unmavreth_part cookie = {check->octets, 0};
    unmavreth_cookie(&cookie, check->octets, check->length, reading.seen.cookie, reading.seen.cookie_len);
    return message_with_cookie(cookie.start, cookie.octets);
}

unmavreth_assessment initiator_assess(const sent *s, const message *response)
{
    return unmavreth_assess(s->cookie, s->cookie_octets, response->first, response->octets, response->length);
}
