// The gateway goes into maintenance and moves its initiators to others (RFC 5685): it writes REDIRECT, the initiator
// reads it and decides, and tells the next gateway where it comes from.
#include <inttypes.h>
#include <string.h>

#include "address.h"
#include "out.h"
#include "scenes.h"
#include "unmavreth_host.h"
#include "unmavreth_words.h"

// The gateways by their identities, and the nonce of the initiator's IKE_SA_INIT request.
static const uint8_t FIRST_GATEWAY[] = {192, 0, 2, 1}, SECOND_GATEWAY[] = {192, 0, 2, 2};
static const uint8_t THIRD_GATEWAY[] = {0x20, 0x01, 0x0d, 0xb8, 0, 0, 0, 0, 0, 0, 0, 0, 0, 0, 0, 3};
static const uint8_t FOURTH_GATEWAY[] = {'g', 'w', '4', '.', 'e', 'x', 'a', 'm', 'p', 'l', 'e'};
static const uint8_t NONCE[] = {0x90, 0x91, 0x92, 0x93, 0x94, 0x95, 0x96, 0x97,
                                0x98, 0x99, 0x9a, 0x9b, 0x9c, 0x9d, 0x9e, 0x9f};
static const uint8_t FORGED_NONCE[sizeof NONCE] = {0x90, 0x91, 0x92, 0x93, 0x94, 0x95, 0x96, 0x97};

#define PART(octets) {octets, sizeof(octets)}
#define FIRST UNMAVRETH_IP4_IDENTITY, PART(FIRST_GATEWAY)
#define SECOND UNMAVRETH_IP4_IDENTITY, PART(SECOND_GATEWAY)
#define THIRD UNMAVRETH_IP6_IDENTITY, PART(THIRD_GATEWAY)
#define FOURTH UNMAVRETH_FQDN_IDENTITY, PART(FOURTH_GATEWAY)
#define NO_NONCE {NULL, 0}

// A REDIRECT as a gateway writes it, when and where it reaches the initiator, and what it decides.
typedef struct moving {
    uint64_t time;
    uint8_t exchange;
    const char *where;
    uint8_t identity_type;
    unmavreth_part identity, nonce;
    uint8_t number;
} moving;

static const moving MOVINGS[] = {
    {1000, UNMAVRETH_SA_INIT, "IKE_SA_INIT response", SECOND, PART(NONCE), UNMAVRETH_DONE},
    {1010, UNMAVRETH_SA_INIT, "forged IKE_SA_INIT response", FIRST, PART(FORGED_NONCE), UNMAVRETH_WRONG_NONCE},
    {1060, UNMAVRETH_LAST_AUTH, "last IKE_AUTH response", THIRD, NO_NONCE, UNMAVRETH_DONE},
    {1070, UNMAVRETH_MIDDLE_AUTH, "middle IKE_AUTH response", SECOND, NO_NONCE, UNMAVRETH_WRONG_EXCHANGE},
    {1120, UNMAVRETH_INFORMATIONAL, "INFORMATIONAL request", FOURTH, NO_NONCE, UNMAVRETH_DONE},
    {1110, UNMAVRETH_INFORMATIONAL, "INFORMATIONAL request", FIRST, NO_NONCE, UNMAVRETH_TIME_BEFORE_LAST},
    {1180, UNMAVRETH_INFORMATIONAL, "INFORMATIONAL request", THIRD, NO_NONCE, UNMAVRETH_DONE},
    {1240, UNMAVRETH_INFORMATIONAL, "INFORMATIONAL request", FOURTH, NO_NONCE, UNMAVRETH_DONE},
    {1299, UNMAVRETH_INFORMATIONAL, "INFORMATIONAL request", SECOND, NO_NONCE, UNMAVRETH_TOO_MANY_REDIRECTS},
    {1300, UNMAVRETH_INFORMATIONAL, "INFORMATIONAL request", SECOND, NO_NONCE, UNMAVRETH_DONE},
};
enum { MOVINGS_COUNT = sizeof MOVINGS / sizeof MOVINGS[0], GATEWAY_TEXT = 64 };

static bool same_part(unmavreth_part a, unmavreth_part b)
{
    return a.octets == b.octets && (a.octets == 0 || memcmp(a.start, b.start, a.octets) == 0);
}

static void gateway_text(char text[GATEWAY_TEXT], uint8_t type, unmavreth_part identity)
{
    uint8_t octets[UNMAVRETH_ADDRESS_OCTETS] = {0};
    text[0] = '\0';
    if (type == UNMAVRETH_FQDN_IDENTITY) {
        text_add(text, GATEWAY_TEXT, "", "%.*s", (int)identity.octets, (const char *)identity.start);
        return;
    }
    char address[ADDRESS_TEXT];
    memcpy(octets, identity.start, identity.octets);
    address_text(address, type == UNMAVRETH_IP4_IDENTITY ? 4 : 6, octets);
    text_add(text, GATEWAY_TEXT, "", "%s", address);
}

static void print_data(const char *what, const unmavreth_redirect_data *data, const unmavreth_data_written *written)
{
    out("    %s, %zu octets of data%s", what, written->length, written->length == 0 ? "" : ": ");
    print_some_octets(data->octets, written->length);
    out("\n");
}

static void print_answer(const char *who, uint8_t number)
{
    out("    %s ", who);
    out_wrapped(number == UNMAVRETH_DONE ? GOOD : CHANGED, 5 + (int)strlen(who), 6, "%u: %s", number,
                unmavreth_number_words(number));
}

static void print_record(const unmavreth_redirects *record)
{
    out("    accepted at");
    for (size_t i = 0; i < record->count && i < UNMAVRETH_REDIRECTS_MOST; i++)
        out(" %" PRIu64, record->times[i]);
    out("\n");
}

// The initiator tells that it can be redirected.
static void play_supported(day *d)
{
    unmavreth_redirect_data data;
    const unmavreth_data_written written = unmavreth_write_redirect_supported(data.octets, sizeof data.octets);
    out("  Initiator's IKE_SA_INIT request:\n");
    print_data("REDIRECT_SUPPORTED", &data, &written);
    const uint8_t number = unmavreth_read_redirect_supported(data.octets, written.length);
    print_answer("gateway answers", number);
    check_number(&d->checks, "the answer to writing REDIRECT_SUPPORTED", written.number, UNMAVRETH_DONE);
    check_number(&d->checks, "the length of REDIRECT_SUPPORTED", written.length, 0);
    check_number(&d->checks, "the answer to reading REDIRECT_SUPPORTED", number, UNMAVRETH_DONE);
}

// The initiator tells the gateway that it was moved to which one it comes from.
static void play_from(day *d)
{
    const unmavreth_part identity = PART(FIRST_GATEWAY);
    unmavreth_redirect_data data;
    char text[GATEWAY_TEXT];
    const unmavreth_data_written written =
        unmavreth_write_redirected_from_part(UNMAVRETH_IP4_IDENTITY, identity, &data);
    out("  Initiator's next IKE_SA_INIT request:\n");
    print_data("REDIRECTED_FROM", &data, &written);
    const unmavreth_part lent = {data.octets, written.length};
    const unmavreth_redirect came = unmavreth_read_redirected_from_part(lent);
    print_answer("second gateway answers", came.number);
    gateway_text(text, came.identity_type, came.identity);
    out("    it comes from %s\n", text);
    check_number(&d->checks, "the answer to writing REDIRECTED_FROM", written.number, UNMAVRETH_DONE);
    check_number(&d->checks, "the answer to reading REDIRECTED_FROM", came.number, UNMAVRETH_DONE);
    check_holds(&d->checks, "REDIRECTED_FROM reads back otherwise",
                came.identity_type == UNMAVRETH_IP4_IDENTITY && same_part(came.identity, identity));
}

// A gateway writes the REDIRECT. Gives its data back.
static unmavreth_part write_moving(day *d, const moving *m, unmavreth_redirect_data *data)
{
    const unmavreth_data_written written = unmavreth_write_redirect_part(m->identity_type, m->identity, m->nonce, data);
    out("  At %" PRIu64 " seconds, %s:\n", m->time, m->where);
    print_data("REDIRECT", data, &written);
    check_number(&d->checks, "the answer to writing REDIRECT", written.number, UNMAVRETH_DONE);
    return (unmavreth_part){data->octets, written.length};
}

// The initiator reads what the REDIRECT says.
static void read_moving(day *d, const moving *m, unmavreth_part data)
{
    char text[GATEWAY_TEXT];
    const unmavreth_redirect read = unmavreth_read_redirect_part(data);
    gateway_text(text, read.identity_type, read.identity);
    out("    to %s, nonce of %zu octets\n", text, read.nonce.octets);
    check_number(&d->checks, "the answer to reading REDIRECT", read.number, UNMAVRETH_DONE);
    check_holds(&d->checks, "REDIRECT reads back otherwise",
                read.identity_type == m->identity_type && same_part(read.identity, m->identity) &&
                    same_part(read.nonce, m->nonce));
}

// What the record must be: the times of the last five accepted ones.
static void keep_time(unmavreth_redirects *expected, uint64_t time)
{
    if (expected->count == UNMAVRETH_REDIRECTS_MOST) {
        memmove(expected->times, expected->times + 1, sizeof expected->times - sizeof expected->times[0]);
        expected->count--;
    }
    expected->times[expected->count++] = time;
}

// The initiator decides.
static void decide_moving(day *d, const moving *m, unmavreth_part data, unmavreth_redirects *record)
{
    const unmavreth_part sent = PART(NONCE);
    unmavreth_redirects expected = *record;
    const unmavreth_redirect decided = unmavreth_decide_redirect_part(record, m->exchange, sent, m->time, data);
    print_answer("initiator decides", decided.number);
    print_record(record);
    if (m->number == UNMAVRETH_DONE)
        keep_time(&expected, m->time);
    check_number(&d->checks, "the initiator's decision", decided.number, m->number);
    check_holds(&d->checks, "the identity handed out is another one",
                same_part(decided.identity, m->number == UNMAVRETH_DONE ? m->identity : (unmavreth_part)NO_NONCE));
    check_holds(&d->checks, "the record of accepted times differs",
                record->count == expected.count &&
                    memcmp(record->times, expected.times, sizeof expected.times) == 0);
}

void play_redirect(day *d)
{
    unmavreth_redirects record = {0};
    unsigned accepted = 0;
    char refused[OUTCOME] = "";
    play_supported(d);
    for (size_t i = 0; i < MOVINGS_COUNT; i++) {
        const moving *m = &MOVINGS[i];
        unmavreth_redirect_data octets;
        const unmavreth_part data = write_moving(d, m, &octets);
        read_moving(d, m, data);
        decide_moving(d, m, data, &record);
        if (i == 0)
            play_from(d);
        if (m->number == UNMAVRETH_DONE)
            accepted++;
        else
            text_add(refused, sizeof refused, ", ", "%u", m->number);
    }
    add_outcome(d, "redirects accepted: %u", accepted);
    add_outcome(d, "refused with %s", refused);
}
