// The calls that open, mark and close records.
#include "records.h"

#include <inttypes.h>

#include "out.h"
#include "unmavreth_words.h"

void open_both(day *d, const unmavreth_opening *opening, uint8_t expected)
{
    uint8_t number = gateway_open(&d->gateway, opening);
    const char *mobike = opening->agreed.mobike ? "agreed" : "not agreed";
    out("  Open IKE record %016" PRIx64 ", MOBIKE %s, with IPsec record %08" PRIx32 ":\n", opening->spi, mobike,
        opening->child);
    if (opening->agreed.operator_id == UNMAVRETH_OPERATOR_B)
        out("    operator B\n");
    if (opening->agreed.cloning)
        out("    cloning agreed, peer %" PRIu32 "\n", opening->agreed.peer);
    out("    answer %u: %s\n", number, unmavreth_number_words(number));
    if (number != UNMAVRETH_DONE)
        add_outcome(d, "opening refused, %u: %s", number, unmavreth_number_words(number));
    check_number(&d->checks, "opening an IKE record with its first IPsec record", number, expected);
}

void open_neither(day *d, const unmavreth_opening *opening, uint8_t expected)
{
    tables before = d->gateway.tables;
    open_both(d, opening, expected);
    bool same = same_tables(&before, &d->gateway.tables);
    out("    %s\n", same ? "no field of any place changed" : "a field of some place changed");
    check_holds(&d->checks, "a field of the tables differs", same);
}

void open_ipsec(day *d, uint32_t spi, uint64_t owner)
{
    uint8_t number = gateway_open_ipsec(&d->gateway, spi, owner);
    out("  Open IPsec record %08" PRIx32 " of %016" PRIx64 ":\n    answer %u: %s\n", spi, owner, number,
        unmavreth_number_words(number));
    check_number(&d->checks, "opening a further IPsec record", number, UNMAVRETH_DONE);
}

void close_ipsec(day *d, size_t place)
{
    uint32_t spi = d->gateway.tables.ipsec[place].spi;
    uint8_t number = gateway_close_ipsec(&d->gateway, spi);
    out("  Close IPsec record %08" PRIx32 ":\n    answer %u: %s\n", spi, number, unmavreth_number_words(number));
    check_number(&d->checks, "closing the IPsec record", number, UNMAVRETH_DONE);
}

void close_ike(day *d, uint64_t spi)
{
    uint8_t number = gateway_close_ike(&d->gateway, spi);
    out("  Close IKE record %016" PRIx64 ", with the IPsec records that it owns:\n    answer %u: %s\n", spi, number,
        unmavreth_number_words(number));
    check_number(&d->checks, "closing the IKE record", number, UNMAVRETH_DONE);
}

void mark_deletion(day *d, uint64_t spi)
{
    uint8_t number = gateway_mark_deletion(&d->gateway, spi);
    out("  Mark IKE record %016" PRIx64 " as being deleted:\n    answer %u: %s\n", spi, number,
        unmavreth_number_words(number));
    check_number(&d->checks, "marking the IKE record", number, UNMAVRETH_DONE);
}

void add_in_use(day *d)
{
    const tables *t = &d->gateway.tables;
    unsigned ike = 0, ipsec = 0;
    for (size_t i = 0; i < UNMAVRETH_IKE_PLACES; i++)
        ike += t->ike.records[i].spi != 0;
    for (size_t i = 0; i < UNMAVRETH_IPSEC_PLACES; i++)
        ipsec += t->ipsec[i].spi != 0;
    add_outcome(d, "records in use: %u IKE, %u IPsec", ike, ipsec);
}
