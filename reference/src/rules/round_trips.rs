// The rules of the round trips: document 01, "The display's end", of which requests read back as they were asked for,
// and which chains are plainly read; with request E8 of document 02 for CLONE_IKE_SA_SUPPORTED and CLONE_IKE_SA.
use crate::address::{Address, AddressPair};
use crate::asking::{Arguments, Ask};
use crate::chain::{Payload, HEADER_LENGTH};
use crate::notify::NotifyType;
use crate::plain::{notify_type, place_in_order};
use crate::summary::MAX_KEPT;

pub trait RoundTripRules {
    /// "that count equals the number of payloads in the chain": one for each that is asked for.
    fn asked_payloads(&self, arguments: &Arguments) -> usize {
        let ask = arguments.ask;
        let kinds = [ask.nat_source, ask.nat_destination];
        let of_clones = [ask.clone_supported, ask.clone];
        let others = [ask.update, ask.no_nats, ask.no_additional, !arguments.cookie.is_empty()];
        let single = kinds.into_iter().chain(of_clones).chain(others);
        single.filter(|&asked| asked).count() + usize::from(ask.count)
    }

    /// E8: the two are "known .. only in a CREATE_CHILD_SA request given as an IKE rekey", so that the reader of other
    /// chains tallies them.
    fn asked_unknown(&self, ask: &Ask) -> usize {
        usize::from(ask.clone_supported) + usize::from(ask.clone)
    }

    /// E8: in such a request, the one is there and the clone made, or 44, "no CLONE_IKE_SA there".
    fn asked_in_rekey(&self, ask: &Ask) -> u8 {
        if ask.clone {
            0
        } else {
            44
        }
    }

    /// "in a list newly kept or given they are 0", the places past the count.
    fn asked_list(&self, arguments: &Arguments) -> [Address; MAX_KEPT] {
        let mut list = [Address::ZERO; MAX_KEPT];
        let listed = arguments.listed();
        list[..listed.len()].copy_from_slice(listed);
        list
    }

    /// "The writer writes, in this order, those asked for": the pair only with NO_NATS_ALLOWED.
    fn asked_pair(&self, arguments: &Arguments) -> AddressPair {
        if arguments.ask.no_nats {
            arguments.pair
        } else {
            AddressPair::ZERO
        }
    }

    /// The same of a NAT value.
    fn asked_value(&self, is_asked: bool, value: &[u8]) -> Vec<u8> {
        if is_asked {
            value.to_vec()
        } else {
            vec![]
        }
    }

    /// "A chain is plainly read if it has this order and these payloads only": the notify types of all payloads, none
    /// if one of them isn't written by the writer.
    fn written_types(&self, payloads: &[Payload]) -> Option<Vec<NotifyType>> {
        let types = payloads.iter().map(|payload| {
            notify_type(payload)
                .filter(|&it| place_in_order(it).is_some() && self.has_zero_header(payload))
        });
        types.collect()
    }

    /// E8: "each written only alone". No paper decides which chains with the two are plainly read; by decision that of
    /// the one alone, in the clone's reading, by which CLONE_IKE_SA is told.
    fn is_plain_clone(&self, payloads: &[Payload]) -> bool {
        let [payload] = payloads else { return false };
        notify_type(payload) == Some(NotifyType::CLONE_IKE_SA) && self.has_zero_header(payload)
    }

    /// "zero flags and protocol IDs".
    fn has_zero_header(&self, payload: &Payload) -> bool {
        self.has_zero_flags(payload.flags) && payload.octets[HEADER_LENGTH] == 0
    }

    /// The same of the flags, the critical bit and the reserved ones.
    fn has_zero_flags(&self, flags: u8) -> bool {
        flags == 0
    }

    /// "this order".
    fn has_order(&self, types: &[NotifyType]) -> bool {
        types.is_sorted_by_key(|&notify_type| place_in_order(notify_type))
    }

    /// "one NAT source and one NAT destination or neither".
    fn has_kinds(&self, sources: usize, destinations: usize) -> bool {
        matches!((sources, destinations), (0, 0) | (1, 1))
    }

    /// "and at most 16 addresses".
    fn has_few(&self, addresses: usize) -> bool {
        addresses <= MAX_KEPT
    }
}
