// Prints the records in use: one to a line with its SPI and pair, below it the rest of an IKE record, and what a field
// that changed was before.
#include <inttypes.h>
#include <stdio.h>
#include <string.h>

#include "address.h"
#include "out.h"
#include "tables.h"
#include "text.h"

enum { CELL = 32, ADDRESSES = 1024, TEXT = 2048, SPI_COLUMN = 14, PAIR_COLUMN = 34 };

#define add(text, ...) text_add(text, TEXT, ", ", __VA_ARGS__)

static const char *star(bool changed)
{
    return changed ? "*" : "";
}

static void print_spi(const char *text, bool changed)
{
    out_in(changed ? CHANGED : PLAIN, "%s%s", text, star(changed));
    out("%*s", PAIR_COLUMN - SPI_COLUMN - (int)(strlen(text) + changed), "");
}

static void print_closed(const char *kind, size_t place, const char *spi)
{
    out("    %-5s %-3zu ", kind, place);
    print_spi(spi, false);
    out_in(CHANGED, "closed*\n");
}

// The line on which a record begins.
static void print_record(const char *kind, size_t place, const char *spi, bool new, const unmavreth_pair *pair,
                         const unmavreth_pair *was)
{
    char text[PAIR_TEXT];
    bool changed = !same_pair(pair, was);
    pair_text(text, pair);
    out("    %-5s %-3zu ", kind, place);
    print_spi(spi, new);
    out_wrapped(changed ? CHANGED : PLAIN, PAIR_COLUMN, PAIR_COLUMN, "%s%s", text, star(changed));
}

static void print_details(style s, const char *before, const char *text)
{
    if (text[0] == '\0')
        return;
    out("%*s", SPI_COLUMN, "");
    out_wrapped(s, SPI_COLUMN, SPI_COLUMN, "%s%s", before, text);
}

static void add_mark(char *text, const char *name, uint64_t mark, bool changed)
{
    if (mark == 0)
        add(text, "%s none%s", name, star(changed));
    else
        add(text, "%s %" PRIu64 "%s", name, mark - 1, star(changed));
}

static bool same_check(const unmavreth_ike *a, const unmavreth_ike *b)
{
    return a->check.length == b->check.length && a->check.id == b->check.id &&
           memcmp(a->check.octets, b->check.octets, sizeof a->check.octets) == 0;
}

// The check that is under way, by its message ID.
static void add_check(char *text, const unmavreth_ike *r, bool changed)
{
    if (r->check.length == 0)
        add(text, "check none%s", star(changed));
    else
        add(text, "check %" PRIu32 "%s", r->check.id, star(changed));
}

// What cloning goes by, of a record that agreed on it: the peer's number, and whether it is being deleted.
static void add_cloning(char *text, const unmavreth_ike *r, const unmavreth_ike *was)
{
    if (r->agreed.cloning == 0)
        return;
    add(text, "cloning agreed%s", star(was->agreed.cloning == 0));
    add(text, "peer %" PRIu32 "%s", r->agreed.peer, star(r->agreed.peer != was->agreed.peer));
    if (r->deleting != 0)
        add(text, "being deleted%s", star(was->deleting == 0));
}

// Whose record it is; most are A's, of which nothing is said.
static void add_operator(char *text, const unmavreth_ike *r, const unmavreth_ike *was)
{
    if (r->agreed.operator_id == UNMAVRETH_OPERATOR_B)
        add(text, "operator B%s", star(was->agreed.operator_id != UNMAVRETH_OPERATOR_B));
}

// The addresses of a record, with a star behind each that `was` has not at its place.
static void add_addresses(char *text, const unmavreth_ike *r, const unmavreth_ike *was)
{
    if (r->count == 0)
        text_add(text, ADDRESSES, ", ", "none%s", star(was->count != 0));
    for (size_t i = 0; i < r->count && i < UNMAVRETH_ADDRESSES_MOST; i++) {
        char one[ADDRESS_TEXT];
        address_text(one, r->addresses[i].family, r->addresses[i].octets);
        bool changed = !same_address(&r->addresses[i], &was->addresses[i]);
        text_add(text, ADDRESSES, ", ", "%s%s", one, star(changed));
    }
}

static bool same_addresses(const unmavreth_ike *a, const unmavreth_ike *b)
{
    for (size_t i = 0; i < UNMAVRETH_ADDRESSES_MOST; i++)
        if (!same_address(&a->addresses[i], &b->addresses[i]))
            return false;
    return a->count == b->count;
}

static void add_pair(char *text, const unmavreth_pair *pair)
{
    char one[PAIR_TEXT];
    pair_text(one, pair);
    add(text, "%s", one);
}

// What the fields that changed were.
static void print_ike_before(const unmavreth_ike *r, const unmavreth_ike *was)
{
    char text[TEXT] = "", addresses[ADDRESSES] = "";
    if (was->spi != r->spi)
        return;
    if (!same_pair(&r->pair, &was->pair))
        add_pair(text, &was->pair);
    if (r->update_mark != was->update_mark)
        add_mark(text, "update", was->update_mark, false);
    if (r->list_mark != was->list_mark)
        add_mark(text, "list", was->list_mark, false);
    if (r->unknown != was->unknown)
        add(text, "unknown %" PRIu32, was->unknown);
    if (!same_check(r, was))
        add_check(text, was, false);
    if (r->deleting != 0 && was->deleting == 0)
        add(text, "not being deleted");
    if (!same_addresses(r, was)) {
        add_addresses(addresses, was, was);
        add(text, "additional addresses %s", addresses);
    }
    print_details(FAINT, "was ", text);
}

static void print_ike(size_t place, const unmavreth_ike *r, const unmavreth_ike *was)
{
    char spi[CELL], marks[TEXT] = "", addresses[ADDRESSES] = "";
    snprintf(spi, sizeof spi, "%016" PRIx64, r->spi == 0 ? was->spi : r->spi);
    if (r->spi == 0) {
        if (was->spi != 0)
            print_closed("IKE", place, spi);
        return;
    }
    print_record("IKE", place, spi, r->spi != was->spi, &r->pair, &was->pair);
    add_mark(marks, "update", r->update_mark, r->update_mark != was->update_mark);
    add_mark(marks, "list", r->list_mark, r->list_mark != was->list_mark);
    add(marks, "unknown %" PRIu32 "%s", r->unknown, star(r->unknown != was->unknown));
    add_check(marks, r, !same_check(r, was));
    add_cloning(marks, r, was);
    add_operator(marks, r, was);
    print_details(PLAIN, "", marks);
    if (r->count != 0 || was->count != 0)
        add_addresses(addresses, r, was);
    print_details(PLAIN, "additional addresses: ", addresses);
    print_ike_before(r, was);
}

// The place of the IKE record with this SPI; past the last if there is none.
static size_t ike_place(const tables *t, uint64_t spi)
{
    size_t place = 0;
    while (place < UNMAVRETH_IKE_PLACES && t->ike.records[place].spi != spi)
        place++;
    return place;
}

static void print_ipsec(const tables *t, size_t place, const unmavreth_ipsec *r, const unmavreth_ipsec *was)
{
    char spi[CELL], text[TEXT] = "";
    if (r->spi == 0) {
        snprintf(spi, sizeof spi, "%08" PRIx32, was->spi);
        if (was->spi != 0)
            print_closed("IPsec", place, spi);
        return;
    }
    snprintf(spi, sizeof spi, "%08" PRIx32 " of IKE %zu", r->spi, ike_place(t, r->owner));
    print_record("IPsec", place, spi, r->spi != was->spi || r->owner != was->owner, &r->pair, &was->pair);
    if (was->spi == r->spi && !same_pair(&r->pair, &was->pair))
        add_pair(text, &was->pair);
    print_details(FAINT, "was ", text);
}

void print_tables(const tables *before, const tables *after)
{
    if (same_tables(before, after))
        out_in(STRONG, "  Tables after the scene, no field changed\n");
    else
        out_in(STRONG, "  Tables after the scene (* changed)\n");
    out_in(FAINT, "    record    SPI                 pair: source > destination\n");
    for (size_t i = 0; i < UNMAVRETH_IKE_PLACES; i++)
        print_ike(i, &after->ike.records[i], &before->ike.records[i]);
    for (size_t i = 0; i < UNMAVRETH_IPSEC_PLACES; i++)
        print_ipsec(after, i, &after->ipsec[i], &before->ipsec[i]);
}
