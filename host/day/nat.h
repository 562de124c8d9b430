// NAT detection values: a host hashes SPIs, address and port; the day has made-up octets, counted up from `start`.
#ifndef DAY_NAT_H
#define DAY_NAT_H

#include "unmavreth.h"

void made_up_nat_value(uint8_t value[UNMAVRETH_NAT_OCTETS], uint8_t start);

#endif
