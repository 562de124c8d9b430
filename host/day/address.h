// Addresses and pairs: made from text, compared, and written as text.
#ifndef DAY_ADDRESS_H
#define DAY_ADDRESS_H

#include "unmavreth.h"

enum { ADDRESS_TEXT = 48, PAIR_TEXT = 128 };

// An address from its usual text; stops the program if the text is none, since the day's addresses are fixed.
unmavreth_address address(const char *text);

// The pair of a packet from one address and port to another of the same family.
unmavreth_pair pair_of(const char *source, uint16_t source_port, const char *destination, uint16_t destination_port);

bool same_address(const unmavreth_address *a, const unmavreth_address *b);
bool same_pair(const unmavreth_pair *a, const unmavreth_pair *b);

void address_text(char text[ADDRESS_TEXT], uint8_t family, const uint8_t octets[16]);
void pair_text(char text[PAIR_TEXT], const unmavreth_pair *pair);

#endif
