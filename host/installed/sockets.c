// The conversions of unmavreth_sockaddr.h, both ways, for both families and IPv4-mapped addresses.
#include <arpa/inet.h>
#include <unmavreth_sockaddr.h>

#include "holds.h"

enum { PORT = 4500, OTHER_PORT = 1025 };

static struct sockaddr_storage socket_address(int family, const char *text, uint16_t port)
{
    uint8_t octets[UNMAVRETH_ADDRESS_OCTETS] = {0};
    struct sockaddr_storage address;
    HOLDS(inet_pton(family, text, octets) == 1);
    HOLDS(unmavreth_to_sockaddr(family == AF_INET ? 4 : 6, octets, port, &address) ==
          (family == AF_INET ? sizeof(struct sockaddr_in) : sizeof(struct sockaddr_in6)));
    return address;
}

static unmavreth_pair pair_of(const struct sockaddr_storage *peer, const struct sockaddr_storage *ours)
{
    return unmavreth_pair_of((const struct sockaddr *)peer, (const struct sockaddr *)ours);
}

static void try_ip4(void)
{
    const struct sockaddr_storage peer = socket_address(AF_INET, "198.51.100.7", PORT);
    const struct sockaddr_storage ours = socket_address(AF_INET, "192.0.2.1", OTHER_PORT);
    const struct sockaddr_in *ip4 = (const struct sockaddr_in *)&peer;
    HOLDS(ip4->sin_family == AF_INET && ip4->sin_port == htons(PORT) && ip4->sin_addr.s_addr == htonl(0xc6336407));
    const unmavreth_pair pair = pair_of(&peer, &ours);
    static const uint8_t source[UNMAVRETH_ADDRESS_OCTETS] = {198, 51, 100, 7};
    static const uint8_t destination[UNMAVRETH_ADDRESS_OCTETS] = {192, 0, 2, 1};
    HOLDS(pair.family == 4 && memcmp(pair.source, source, sizeof source) == 0);
    HOLDS(memcmp(pair.destination, destination, sizeof destination) == 0);
    HOLDS(pair.source_port == PORT && pair.destination_port == OTHER_PORT);
    struct sockaddr_storage back;
    HOLDS(unmavreth_source_sockaddr(&pair, &back) == sizeof(struct sockaddr_in));
    HOLDS(memcmp(&back, &peer, sizeof back) == 0);
    HOLDS(unmavreth_destination_sockaddr(&pair, &back) == sizeof(struct sockaddr_in));
    HOLDS(memcmp(&back, &ours, sizeof back) == 0);
}

static void try_ip6(void)
{
    const struct sockaddr_storage peer = socket_address(AF_INET6, "2001:db8::7", PORT);
    const struct sockaddr_storage ours = socket_address(AF_INET6, "2001:db8::1", OTHER_PORT);
    const unmavreth_pair pair = pair_of(&peer, &ours);
    HOLDS(pair.family == 6 && pair.source[0] == 0x20 && pair.source[15] == 7 && pair.destination[15] == 1);
    HOLDS(pair.source_port == PORT && pair.destination_port == OTHER_PORT);
    struct sockaddr_storage back;
    HOLDS(unmavreth_source_sockaddr(&pair, &back) == sizeof(struct sockaddr_in6));
    HOLDS(memcmp(&back, &peer, sizeof back) == 0);
    HOLDS(unmavreth_to_mapped_sockaddr(6, pair.source, PORT, &back) == sizeof(struct sockaddr_in6));
    HOLDS(memcmp(&back, &peer, sizeof back) == 0);
}

static void try_mapped(void)
{
    const struct sockaddr_storage peer = socket_address(AF_INET, "198.51.100.7", PORT);
    const struct sockaddr_storage mapped = socket_address(AF_INET6, "::ffff:198.51.100.7", PORT);
    const struct sockaddr_storage ours = socket_address(AF_INET, "192.0.2.1", OTHER_PORT);
    const struct sockaddr_storage ip6 = socket_address(AF_INET6, "2001:db8::1", OTHER_PORT);
    const unmavreth_pair plain = pair_of(&peer, &ours), pair = pair_of(&mapped, &ours);
    HOLDS(memcmp(&plain, &pair, sizeof pair) == 0); // both were cleared first, their padding too
    HOLDS(pair_of(&mapped, &ip6).family == 0 && pair_of(&ip6, &ours).family == 0);
    struct sockaddr_storage back;
    HOLDS(unmavreth_to_mapped_sockaddr(4, pair.source, PORT, &back) == sizeof(struct sockaddr_in6));
    HOLDS(memcmp(&back, &mapped, sizeof back) == 0);
}

// Another family has no address, and a call refuses its pair.
static void try_neither(void)
{
    struct sockaddr_storage local, back;
    memset(&local, 0xff, sizeof local);
    local.ss_family = AF_UNIX;
    uint16_t port = 1;
    HOLDS(unmavreth_address_of((const struct sockaddr *)&local, &port).family == 0 && port == 0);
    const unmavreth_pair pair = pair_of(&local, &local);
    static unmavreth_policies policies;
    HOLDS(pair.family == 0 && !unmavreth_acceptable(&policies, pair, UNMAVRETH_OPERATOR_A));
    HOLDS(unmavreth_source_sockaddr(&pair, &back) == 0);
}

int main(void)
{
    try_ip4();
    try_ip6();
    try_mapped();
    try_neither();
    return 0;
}
