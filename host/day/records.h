// The calls that open, mark and close records: each prints its answer, and checks it.
#ifndef DAY_RECORDS_H
#define DAY_RECORDS_H

#include "exchange.h"

// Opens the records of the SAs that one IKE_AUTH exchange makes, an IKE record and its first IPsec record; the answer
// must be `expected`.
void open_both(day *d, const unmavreth_opening *opening, uint8_t expected);

// The same, where the answer is a refusal: no field of any place changes.
void open_neither(day *d, const unmavreth_opening *opening, uint8_t expected);

// The answer of each of these must be done.
void open_ipsec(day *d, uint32_t spi, uint64_t owner);
void close_ipsec(day *d, size_t place);
void close_ike(day *d, uint64_t spi);
void mark_deletion(day *d, uint64_t spi);

// Adds to the scene's outcome how many records are in use.
void add_in_use(day *d);

#endif
