//! Addresses and pairs from and to those of the standard library. An IPv4-mapped IPv6 address, as a socket
//! of both families tells an IPv4 peer, is taken as the IPv4 address that it is; `Ipv4Addr::to_ipv6_mapped`
//! leads back to it. An IPv6 scope and flow are left off, and are 0 on the way back.
use crate::layout::{Address, Pair};
use crate::limits::{ADDRESS_OCTETS, IP4_OCTETS};
use std::net::{IpAddr, Ipv4Addr, Ipv6Addr, SocketAddr};

impl From<IpAddr> for Address {
    fn from(ip: IpAddr) -> Self {
        match ip.to_canonical() {
            IpAddr::V4(ip) => Address::ipv4(ip.octets()),
            IpAddr::V6(ip) => Address::ipv6(ip.octets()),
        }
    }
}

impl Address {
    /// The address; none if the family is not 4 or 6.
    pub fn ip(&self) -> Option<IpAddr> {
        ip(self.family, &self.octets)
    }
}

impl Pair {
    /// The pair of a packet from `peer` to `own`; [`NONE`](Pair::NONE) if the two are not of one family, which
    /// each call that is given it refuses.
    pub fn between(peer: SocketAddr, own: SocketAddr) -> Pair {
        let (source, destination) = (Address::from(peer.ip()), Address::from(own.ip()));
        if source.family != destination.family {
            return Pair::NONE;
        }
        Pair {
            family: source.family,
            source: source.octets,
            destination: destination.octets,
            source_port: peer.port(),
            destination_port: own.port(),
        }
    }

    /// Where the peer is; none if the family is not 4 or 6.
    pub fn source_socket(&self) -> Option<SocketAddr> {
        Some(SocketAddr::new(ip(self.family, &self.source)?, self.source_port))
    }

    /// Where the gateway is; none if the family is not 4 or 6.
    pub fn destination_socket(&self) -> Option<SocketAddr> {
        Some(SocketAddr::new(ip(self.family, &self.destination)?, self.destination_port))
    }
}

fn ip(family: u8, octets: &[u8; ADDRESS_OCTETS]) -> Option<IpAddr> {
    match family {
        4 => {
            let mut ip4 = [0; IP4_OCTETS];
            ip4.copy_from_slice(&octets[..IP4_OCTETS]);
            Some(Ipv4Addr::from(ip4).into())
        }
        6 => Some(Ipv6Addr::from(*octets).into()),
        _ => None,
    }
}
