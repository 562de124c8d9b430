// Compares tables. The library promises each field of each place and nothing of padding, so fields are compared.
#include "tables.h"

#include <string.h>

#include "address.h"

uint64_t mark_of(uint32_t id)
{
    return (uint64_t)id + 1;
}

void open_expected(tables *t, size_t ike_place, size_t ipsec_place, const unmavreth_opening *opening)
{
    unmavreth_ike *ike = &t->ike.records[ike_place];
    *ike = (unmavreth_ike){.spi = opening->spi, .agreed = opening->agreed, .pair = opening->pair};
    t->ipsec[ipsec_place] = (unmavreth_ipsec){.spi = opening->child, .owner = opening->spi, .pair = opening->pair};
}

unmavreth_pending_check pending_expected(const uint8_t *cookie, uint8_t octets, uint32_t id)
{
    unmavreth_pending_check check = {.length = octets, .id = id};
    memcpy(check.octets, cookie, octets);
    return check;
}

void accept_expected(tables *t, size_t ike_place)
{
    unmavreth_ike *ike = &t->ike.records[ike_place];
    for (size_t i = 0; i < UNMAVRETH_IPSEC_PLACES; i++)
        if (t->ipsec[i].spi != 0 && t->ipsec[i].owner == ike->spi)
            t->ipsec[i].pair = ike->pair;
    ike->check = (unmavreth_pending_check){0};
}

static bool same_check(const unmavreth_pending_check *a, const unmavreth_pending_check *b)
{
    return a->length == b->length && memcmp(a->octets, b->octets, sizeof a->octets) == 0 && a->id == b->id;
}

static bool same_agreed(const unmavreth_agreed *a, const unmavreth_agreed *b)
{
    return a->mobike == b->mobike && a->cloning == b->cloning && a->operator_id == b->operator_id && a->peer == b->peer;
}

static bool same_ike(const unmavreth_ike *a, const unmavreth_ike *b)
{
    for (size_t i = 0; i < UNMAVRETH_ADDRESSES_MOST; i++)
        if (!same_address(&a->addresses[i], &b->addresses[i]))
            return false;
    return a->spi == b->spi && same_agreed(&a->agreed, &b->agreed) && same_pair(&a->pair, &b->pair) &&
           a->update_mark == b->update_mark && a->list_mark == b->list_mark && a->count == b->count &&
           a->unknown == b->unknown && same_check(&a->check, &b->check) && a->deleting == b->deleting;
}

static bool same_ipsec(const unmavreth_ipsec *a, const unmavreth_ipsec *b)
{
    return a->spi == b->spi && a->owner == b->owner && same_pair(&a->pair, &b->pair);
}

bool same_tables(const tables *a, const tables *b)
{
    for (size_t i = 0; i < UNMAVRETH_IKE_PLACES; i++)
        if (!same_ike(&a->ike.records[i], &b->ike.records[i]))
            return false;
    for (size_t i = 0; i < UNMAVRETH_IPSEC_PLACES; i++)
        if (!same_ipsec(&a->ipsec[i], &b->ipsec[i]))
            return false;
    return true;
}
