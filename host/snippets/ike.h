// What the snippets take from the host around them, as a host might have it; try.c stands in for that host.
#ifndef SNIPPETS_IKE_H
#define SNIPPETS_IKE_H

#include <sys/socket.h>
#include <unmavreth_host.h>

struct ike_sa {
    uint64_t own_spi;    // the SPI that the gateway chose for the IKE SA
    uint32_t child_spi;  // and for its first child SA
    uint8_t mobike;      // whether both ends sent MOBIKE_SUPPORTED
    uint8_t cloning;     // whether both ends sent CLONE_IKE_SA_SUPPORTED
    uint8_t operator_id; // of those who share the gateway, whose client IKE_AUTH authenticated
    uint32_t client;     // the number that the host has for this client
    uint32_t next_id;    // the message ID of the next request of ours
    const struct sockaddr *peer, *own;
};

struct ike_request {
    uint32_t id;
    const struct sockaddr *from, *to; // of the packet
    unmavreth_nat nat_source, nat_destination;
    uint8_t first;
    const uint8_t *payloads;
    size_t octets;
    uint8_t fresh[16]; // drawn for it, octets that nobody can guess
};

// A response to a request of ours.
struct ike_response {
    uint32_t id;
    uint8_t first;
    const uint8_t *payloads;
    size_t octets;
};

// Encrypts the payloads of a response, sends it, and keeps it for a retransmission.
void ike_respond(const struct ike_sa *sa, uint32_t id, uint8_t first, const uint8_t *payloads, size_t octets);

// Encrypts the payloads of a request of ours and sends it to where the SA's record now is, once no other is under way,
// and again until its response comes.
void ike_ask(const struct ike_sa *sa, uint32_t id, uint8_t first, const uint8_t *payloads, size_t octets);

// Deletes the IKE SA and its child SAs, whose records are closed.
void ike_close(const struct ike_sa *sa);

// Gives the SAs of the kernel that have this child SPI other addresses.
void ike_move_child(uint32_t child_spi, const unmavreth_pair *was, const unmavreth_pair *is);

#endif
