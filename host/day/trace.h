// The day's calls on the gateway's tables and policies as a trace (docs/TRACE.md), in the order in which they are made.
#ifndef DAY_TRACE_H
#define DAY_TRACE_H

#include "message.h"

enum { TRACE_ROOM = 16384 };

typedef struct trace {
    unsigned entries;
    size_t length;
    uint8_t octets[TRACE_ROOM];
} trace;

// Each puts one entry behind the others; it stops the program if the entry is refused, since the day's calls are fixed.
void trace_open_both(trace *t, const unmavreth_opening *opening);
void trace_add_ipsec(trace *t, uint32_t spi, uint64_t owner, uint8_t operator_id);
void trace_close_ike(trace *t, uint64_t spi, uint8_t operator_id);
void trace_close_ipsec(trace *t, uint32_t spi, uint8_t operator_id);
void trace_policy(trace *t, uint16_t count, const unmavreth_rules *rules, uint8_t operator_id);
void trace_request(trace *t, uint64_t spi, uint32_t id, const unmavreth_pair *packet,
                   const uint8_t nat_source[UNMAVRETH_NAT_OCTETS], const uint8_t nat_destination[UNMAVRETH_NAT_OCTETS],
                   const message *request, const uint8_t *cookie, size_t cookie_octets, uint32_t check_id,
                   uint8_t operator_id);
void trace_check_response(trace *t, uint64_t spi, uint32_t id, const message *response, uint8_t operator_id);
void trace_clone(trace *t, uint64_t spi, uint64_t new_spi, const message *request, uint8_t operator_id);
void trace_mark_deletion(trace *t, uint64_t spi, uint8_t operator_id);

// How many entries there are in the octets, read one behind the other; 0 if one is refused.
unsigned trace_read_back(const trace *t);

// Whether the octets could be written to this file.
bool trace_save(const trace *t, const char *file);

#endif
