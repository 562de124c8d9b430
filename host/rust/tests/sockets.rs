//! Addresses and pairs from and to the standard library's, IPv4-mapped ones included.
use std::net::{IpAddr, SocketAddr};
use unmavreth::{Address, Pair};

fn socket(text: &str) -> SocketAddr {
    text.parse().expect("a socket address")
}

#[test]
fn pairs_of_both_families() {
    let (peer, own) = (socket("198.51.100.7:4500"), socket("192.0.2.1:1025"));
    let pair = Pair::between(peer, own);
    assert_eq!(pair, Pair::ipv4(([198, 51, 100, 7], 4500), ([192, 0, 2, 1], 1025)));
    assert_eq!((pair.source_socket(), pair.destination_socket()), (Some(peer), Some(own)));

    let (peer, own) = (socket("[2001:db8::7]:4500"), socket("[2001:db8::1]:1025"));
    let pair = Pair::between(peer, own);
    assert_eq!((pair.family, pair.source[15], pair.destination[15]), (6, 7, 1));
    assert_eq!((pair.source_socket(), pair.destination_socket()), (Some(peer), Some(own)));
}

#[test]
fn a_mapped_address_is_the_ipv4_address() {
    let (mapped, plain) = (socket("[::ffff:198.51.100.7]:4500"), socket("198.51.100.7:4500"));
    let own = socket("192.0.2.1:4500");
    assert_eq!(Pair::between(mapped, own), Pair::between(plain, own));
    assert_eq!(Address::from(mapped.ip()), Address::ipv4([198, 51, 100, 7]));
    assert_eq!(Address::from(mapped.ip()).ip(), Some(plain.ip()));
}

#[test]
fn what_is_no_pair() {
    let (ip4, ip6) = (socket("192.0.2.1:4500"), socket("[2001:db8::7]:4500"));
    assert_eq!((Pair::between(ip4, ip6), Pair::between(ip6, ip4)), (Pair::NONE, Pair::NONE));
    assert_eq!((Pair::NONE.source_socket(), Pair::NONE.destination_socket()), (None, None));
    assert_eq!(Address::NONE.ip(), None);
    let none: Option<IpAddr> = Address { family: 5, ..Address::ipv4([1; 4]) }.ip();
    assert_eq!(none, None);
}
