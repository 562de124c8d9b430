// NAT detection values, made up.
#include "nat.h"

void made_up_nat_value(uint8_t value[UNMAVRETH_NAT_OCTETS], uint8_t start)
{
    for (uint8_t i = 0; i < UNMAVRETH_NAT_OCTETS; i++)
        value[i] = (uint8_t)(start + i);
}
