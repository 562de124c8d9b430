// Writes the day's calls as entries of a trace: what a call is given becomes the slots of an entry, which the library
// writes.
#include "trace.h"

#include <stdio.h>
#include <stdlib.h>
#include <string.h>

// The slots of an entry, and the octets of its addresses and strings, which the slots point into.
typedef struct told {
    uint64_t slots[UNMAVRETH_ENTRY_SLOTS];
    uint8_t source[2 * UNMAVRETH_RULES_MOST * UNMAVRETH_ADDRESS_OCTETS + UNMAVRETH_REQUEST_ROOM];
    size_t used;
} told;

static uint64_t offset_of(told *what, const uint8_t *octets, size_t length)
{
    size_t at = what->used;
    memcpy(what->source + at, octets, length);
    what->used += length;
    return at;
}

static void tell_pair(told *what, size_t first, const unmavreth_pair *pair)
{
    uint64_t *slots = what->slots + first;
    slots[UNMAVRETH_PAIR_FAMILY] = pair->family;
    slots[UNMAVRETH_PAIR_SOURCE] = offset_of(what, pair->source, sizeof pair->source);
    slots[UNMAVRETH_PAIR_DESTINATION] = offset_of(what, pair->destination, sizeof pair->destination);
    slots[UNMAVRETH_PAIR_SOURCE_PORT] = pair->source_port;
    slots[UNMAVRETH_PAIR_DESTINATION_PORT] = pair->destination_port;
}

static void tell_rule(told *what, size_t first, const unmavreth_rule *rule)
{
    uint64_t *slots = what->slots + first;
    slots[UNMAVRETH_RULE_FAMILY] = rule->family;
    slots[UNMAVRETH_RULE_SOURCE] = offset_of(what, rule->source, sizeof rule->source);
    slots[UNMAVRETH_RULE_DESTINATION] = offset_of(what, rule->destination, sizeof rule->destination);
    slots[UNMAVRETH_RULE_SOURCE_LEN] = rule->source_len;
    slots[UNMAVRETH_RULE_DESTINATION_LEN] = rule->destination_len;
}

static void append(trace *t, uint8_t kind, const told *what)
{
    unmavreth_entry_written written = unmavreth_write_entry(kind, what->slots, what->source, what->used,
                                                            t->octets + t->length, sizeof t->octets - t->length);
    if (written.number != UNMAVRETH_DONE) {
        fprintf(stderr, "day: entry %u of the trace is refused with %u\n", t->entries, written.number);
        exit(2);
    }
    t->entries++;
    t->length += written.length;
}

void trace_open_both(trace *t, const unmavreth_opening *opening)
{
    told what = {0};
    what.slots[UNMAVRETH_OPEN_SPI] = opening->spi;
    what.slots[UNMAVRETH_OPEN_AGREED] = opening->agreed.mobike != 0;
    tell_pair(&what, UNMAVRETH_OPEN_PAIR, &opening->pair);
    what.slots[UNMAVRETH_OPEN_CHILD] = opening->child;
    what.slots[UNMAVRETH_OPEN_PEER] = opening->agreed.peer;
    what.slots[UNMAVRETH_OPEN_CLONING] = opening->agreed.cloning != 0;
    what.slots[UNMAVRETH_OPEN_OPERATOR] = opening->agreed.operator_id;
    append(t, UNMAVRETH_KIND_OPEN_BOTH, &what);
}

void trace_add_ipsec(trace *t, uint32_t spi, uint64_t owner, uint8_t operator_id)
{
    told what = {0};
    what.slots[UNMAVRETH_ADD_SPI] = spi;
    what.slots[UNMAVRETH_ADD_OWNER] = owner;
    what.slots[UNMAVRETH_ADD_OPERATOR] = operator_id;
    append(t, UNMAVRETH_KIND_ADD_IPSEC, &what);
}

void trace_close_ike(trace *t, uint64_t spi, uint8_t operator_id)
{
    told what = {0};
    what.slots[UNMAVRETH_CLOSE_IKE_SPI] = spi;
    what.slots[UNMAVRETH_CLOSE_IKE_OPERATOR] = operator_id;
    append(t, UNMAVRETH_KIND_CLOSE_IKE, &what);
}

void trace_close_ipsec(trace *t, uint32_t spi, uint8_t operator_id)
{
    told what = {0};
    what.slots[UNMAVRETH_CLOSE_IPSEC_SPI] = spi;
    what.slots[UNMAVRETH_CLOSE_IPSEC_OPERATOR] = operator_id;
    append(t, UNMAVRETH_KIND_CLOSE_IPSEC, &what);
}

void trace_policy(trace *t, uint16_t count, const unmavreth_rules *rules, uint8_t operator_id)
{
    told what = {0};
    what.slots[UNMAVRETH_POLICY_COUNT] = count;
    for (size_t i = 0; i < count && i < UNMAVRETH_RULES_MOST; i++)
        tell_rule(&what, UNMAVRETH_POLICY_RULE(i), &rules->rules[i]);
    what.slots[UNMAVRETH_POLICY_OPERATOR] = operator_id;
    append(t, UNMAVRETH_KIND_POLICY, &what);
}

void trace_request(trace *t, uint64_t spi, uint32_t id, const unmavreth_pair *packet,
                   const uint8_t nat_source[UNMAVRETH_NAT_OCTETS], const uint8_t nat_destination[UNMAVRETH_NAT_OCTETS],
                   const message *request, const uint8_t *cookie, size_t cookie_octets, uint32_t check_id,
                   uint8_t operator_id)
{
    told what = {0};
    what.slots[UNMAVRETH_REQUEST_SPI] = spi;
    what.slots[UNMAVRETH_REQUEST_ID] = id;
    tell_pair(&what, UNMAVRETH_REQUEST_PAIR, packet);
    what.slots[UNMAVRETH_REQUEST_NAT_SOURCE] = offset_of(&what, nat_source, UNMAVRETH_NAT_OCTETS);
    what.slots[UNMAVRETH_REQUEST_NAT_SOURCE_SIZE] = UNMAVRETH_NAT_OCTETS;
    what.slots[UNMAVRETH_REQUEST_NAT_DESTINATION] = offset_of(&what, nat_destination, UNMAVRETH_NAT_OCTETS);
    what.slots[UNMAVRETH_REQUEST_NAT_DESTINATION_SIZE] = UNMAVRETH_NAT_OCTETS;
    what.slots[UNMAVRETH_REQUEST_FIRST] = request->first;
    what.slots[UNMAVRETH_REQUEST_BODY] = offset_of(&what, request->octets, request->length);
    what.slots[UNMAVRETH_REQUEST_BODY_SIZE] = request->length;
    what.slots[UNMAVRETH_REQUEST_COOKIE] = offset_of(&what, cookie, cookie_octets);
    what.slots[UNMAVRETH_REQUEST_COOKIE_SIZE] = cookie_octets;
    what.slots[UNMAVRETH_REQUEST_CHECK_ID] = check_id;
    what.slots[UNMAVRETH_REQUEST_OPERATOR] = operator_id;
    append(t, UNMAVRETH_KIND_REQUEST, &what);
}

void trace_check_response(trace *t, uint64_t spi, uint32_t id, const message *response, uint8_t operator_id)
{
    told what = {0};
    what.slots[UNMAVRETH_CHECK_RESPONSE_SPI] = spi;
    what.slots[UNMAVRETH_CHECK_RESPONSE_ID] = id;
    what.slots[UNMAVRETH_CHECK_RESPONSE_FIRST] = response->first;
    what.slots[UNMAVRETH_CHECK_RESPONSE_BODY] = offset_of(&what, response->octets, response->length);
    what.slots[UNMAVRETH_CHECK_RESPONSE_BODY_SIZE] = response->length;
    what.slots[UNMAVRETH_CHECK_RESPONSE_OPERATOR] = operator_id;
    append(t, UNMAVRETH_KIND_CHECK_RESPONSE, &what);
}

void trace_clone(trace *t, uint64_t spi, uint64_t new_spi, const message *request, uint8_t operator_id)
{
    told what = {0};
    what.slots[UNMAVRETH_CLONE_SPI] = spi;
    what.slots[UNMAVRETH_CLONE_NEW_SPI] = new_spi;
    what.slots[UNMAVRETH_CLONE_FIRST] = request->first;
    what.slots[UNMAVRETH_CLONE_BODY] = offset_of(&what, request->octets, request->length);
    what.slots[UNMAVRETH_CLONE_BODY_SIZE] = request->length;
    what.slots[UNMAVRETH_CLONE_OPERATOR] = operator_id;
    append(t, UNMAVRETH_KIND_CLONE, &what);
}

void trace_mark_deletion(trace *t, uint64_t spi, uint8_t operator_id)
{
    told what = {0};
    what.slots[UNMAVRETH_MARK_DELETION_SPI] = spi;
    what.slots[UNMAVRETH_MARK_DELETION_OPERATOR] = operator_id;
    append(t, UNMAVRETH_KIND_MARK_DELETION, &what);
}

unsigned trace_read_back(const trace *t)
{
    unsigned entries = 0;
    for (size_t at = 0; at < t->length; entries++) {
        unmavreth_entry_read read = unmavreth_read_entry(t->octets, t->length, at);
        if (read.number != UNMAVRETH_DONE)
            return 0;
        at = read.next;
    }
    return entries;
}

bool trace_save(const trace *t, const char *file)
{
    FILE *out = fopen(file, "wb");
    if (out == NULL)
        return false;
    bool all = fwrite(t->octets, 1, t->length, out) == t->length;
    return fclose(out) == 0 && all;
}
