// Addresses and pairs from and to the system's socket addresses, for C11 and C++11. An IPv4-mapped IPv6 address, as a
// socket of both families tells an IPv4 peer, is taken as the IPv4 address that it is. What the library has no field
// for, an IPv6 scope and flow, is left off, and is 0 on the way back.
#ifndef UNMAVRETH_SOCKADDR_H
#define UNMAVRETH_SOCKADDR_H

#include <netinet/in.h>
#include <string.h>
#include <sys/socket.h>

#include "unmavreth.h"

// What an IPv4-mapped address begins with, before its four octets.
#define UNMAVRETH_MAPPED "\0\0\0\0\0\0\0\0\0\0\xff\xff"
enum { UNMAVRETH_MAPPED_OCTETS = 12 };

// The address of a socket address, and its port; family 0 and zeros if it is neither of AF_INET nor of AF_INET6.
static inline unmavreth_address unmavreth_address_of(const struct sockaddr *from, uint16_t *port)
{
    unmavreth_address address;
    memset(&address, 0, sizeof address);
    *port = 0;
    if (from->sa_family == AF_INET) {
        struct sockaddr_in ip4;
        memcpy(&ip4, from, sizeof ip4);
        address.family = 4;
        memcpy(address.octets, &ip4.sin_addr, UNMAVRETH_IP4_OCTETS);
        *port = ntohs(ip4.sin_port);
    } else if (from->sa_family == AF_INET6) {
        struct sockaddr_in6 ip6;
        memcpy(&ip6, from, sizeof ip6);
        const uint8_t *octets = ip6.sin6_addr.s6_addr;
        const bool is_mapped = memcmp(octets, UNMAVRETH_MAPPED, UNMAVRETH_MAPPED_OCTETS) == 0;
        address.family = is_mapped ? 4 : 6;
        memcpy(address.octets, is_mapped ? octets + UNMAVRETH_MAPPED_OCTETS : octets,
               is_mapped ? UNMAVRETH_IP4_OCTETS : UNMAVRETH_IP6_OCTETS);
        *port = ntohs(ip6.sin6_port);
    }
    return address;
}

// The pair of a packet from `peer` to `ours`. Family 0 and zeros if the two are not of one family, so that a call that
// is given it refuses it (1).
static inline unmavreth_pair unmavreth_pair_of(const struct sockaddr *peer, const struct sockaddr *ours)
{
    unmavreth_pair pair;
    memset(&pair, 0, sizeof pair);
    uint16_t source_port, destination_port;
    const unmavreth_address source = unmavreth_address_of(peer, &source_port);
    const unmavreth_address destination = unmavreth_address_of(ours, &destination_port);
    if (source.family == 0 || source.family != destination.family)
        return pair;
    pair.family = source.family;
    memcpy(pair.source, source.octets, sizeof pair.source);
    memcpy(pair.destination, destination.octets, sizeof pair.destination);
    pair.source_port = source_port;
    pair.destination_port = destination_port;
    return pair;
}

// The socket address of an address and a port, and its length; 0, and zeros, if the family is not 4 or 6.
static inline socklen_t unmavreth_to_sockaddr(uint8_t family, const uint8_t octets[UNMAVRETH_ADDRESS_OCTETS],
                                              uint16_t port, struct sockaddr_storage *to)
{
    memset(to, 0, sizeof *to);
    if (family == 4) {
        struct sockaddr_in ip4;
        memset(&ip4, 0, sizeof ip4);
        ip4.sin_family = AF_INET;
        ip4.sin_port = htons(port);
        memcpy(&ip4.sin_addr, octets, UNMAVRETH_IP4_OCTETS);
        memcpy(to, &ip4, sizeof ip4);
        return sizeof ip4;
    }
    if (family == 6) {
        struct sockaddr_in6 ip6;
        memset(&ip6, 0, sizeof ip6);
        ip6.sin6_family = AF_INET6;
        ip6.sin6_port = htons(port);
        memcpy(&ip6.sin6_addr, octets, UNMAVRETH_IP6_OCTETS);
        memcpy(to, &ip6, sizeof ip6);
        return sizeof ip6;
    }
    return 0;
}

// The same for a socket of AF_INET6 that serves both families: an IPv4 address becomes an IPv4-mapped one.
static inline socklen_t unmavreth_to_mapped_sockaddr(uint8_t family, const uint8_t octets[UNMAVRETH_ADDRESS_OCTETS],
                                                     uint16_t port, struct sockaddr_storage *to)
{
    uint8_t mapped[UNMAVRETH_ADDRESS_OCTETS];
    if (family != 4)
        return unmavreth_to_sockaddr(family, octets, port, to);
    memcpy(mapped, UNMAVRETH_MAPPED, UNMAVRETH_MAPPED_OCTETS);
    memcpy(mapped + UNMAVRETH_MAPPED_OCTETS, octets, UNMAVRETH_IP4_OCTETS);
    return unmavreth_to_sockaddr(6, mapped, port, to);
}

// Where the peer of a pair is, and the gateway.
static inline socklen_t unmavreth_source_sockaddr(const unmavreth_pair *pair, struct sockaddr_storage *to)
{
    return unmavreth_to_sockaddr(pair->family, pair->source, pair->source_port, to);
}

static inline socklen_t unmavreth_destination_sockaddr(const unmavreth_pair *pair, struct sockaddr_storage *to)
{
    return unmavreth_to_sockaddr(pair->family, pair->destination, pair->destination_port, to);
}

#endif
