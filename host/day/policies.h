// An operator's policy: set, and asked about pairs; each prints its answer, and checks it.
#ifndef DAY_POLICIES_H
#define DAY_POLICIES_H

#include "exchange.h"

unmavreth_rule rule_of(const char *source, uint8_t source_len, const char *destination, uint8_t destination_len);

// Sets the policy of the operator whose calls are made now, named so; the answer must be done.
void set_policy(day *d, const char *name, uint16_t count, const unmavreth_rules *rules);

// Whether this pair, at this place, is acceptable by that policy.
void ask_policy(day *d, const char *place, unmavreth_pair pair, bool expected);

#endif
