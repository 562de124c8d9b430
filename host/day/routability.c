// Plays a check: the gateway writes it, the response is handed to the library, and the answer is printed and checked.
#include "routability.h"

#include <stdio.h>

#include "unmavreth_words.h"

enum { TITLE = 64 };

message send_check(day *d, const own_check *check)
{
    message m = gateway_write_check(check);
    char title[TITLE];
    snprintf(title, sizeof title, "Gateway checks, message ID %u", (unsigned)check->id);
    print_described(title, &m);
    d->own_id = check->id + 1;
    unmavreth_reading reading = unmavreth_read(m.first, m.octets, m.length);
    check_number(&d->checks, "the payloads of the check", reading.seen.tally.payloads, 1);
    check_number(&d->checks, "the octets of its cookie", reading.seen.cookie_len, sizeof check->cookie);
    return m;
}

checking checking_new(const day *d, const own_check *check, message response)
{
    checking c = {.spi = OUR_SPI, .id = check->id, .response = response, .after = d->gateway.tables};
    c.outcome = UNMAVRETH_OUTCOME_ACCEPTED;
    return c;
}

void play_response(day *d, const checking *c)
{
    char title[TITLE];
    snprintf(title, sizeof title, "Response to check %u", (unsigned)c->id);
    print_described(title, &c->response);
    unmavreth_assessment a = gateway_end_check(&d->gateway, c->spi, c->id, &c->response);
    print_assessment("Gateway", &a);
    check_number(&d->checks, "the answer", a.number, c->number);
    check_number(&d->checks, "the outcome", a.outcome, c->outcome);
    check_number(&d->checks, "the count of payloads", a.payloads, c->number == UNMAVRETH_DONE ? 1 : 0);
    check_number(&d->checks, "the tally", a.tally, 0);
    check_holds(&d->checks, "a field of the tables differs", same_tables(&c->after, &d->gateway.tables));
    if (a.number == UNMAVRETH_DONE)
        add_outcome(d, "check: %s", unmavreth_outcome_words(a.outcome));
    else
        add_outcome(d, "check: %u: %s", a.number, unmavreth_number_words(a.number));
}
