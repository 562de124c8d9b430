// The gateway's tables: compared field by field, and printed with what changed marked.
#ifndef DAY_TABLES_H
#define DAY_TABLES_H

#include "unmavreth.h"

typedef struct tables {
    unmavreth_ike_table ike;
    unmavreth_ipsec ipsec[UNMAVRETH_IPSEC_PLACES];
} tables;

// A message ID as a mark keeps it.
uint64_t mark_of(uint32_t id);

// The two records that an opening makes, set by the host at these places to say what it expects.
void open_expected(tables *t, size_t ike_place, size_t ipsec_place, const unmavreth_opening *opening);

// The check that an applied update leaves with a record, set by the host to say what it expects; of no octets: none.
unmavreth_pending_check pending_expected(const uint8_t *cookie, uint8_t octets, uint32_t id);

// What an accepted check leaves, set by the host to say what it expects: each IPsec record that the IKE record at this
// place owns has its pair, and no check is under way.
void accept_expected(tables *t, size_t ike_place);

bool same_tables(const tables *a, const tables *b);

// The records in use after a scene; `*` stands behind each field that changed, and below it what it was.
void print_tables(const tables *before, const tables *after);

#endif
