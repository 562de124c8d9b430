// The rules of the request writer: document 01, "The display's end" and "The numbers given back", with request E8 of
// document 02.
use crate::address::{octet_count, Address};
use crate::asking::{may_be_sent, Arguments, Ask, Check, LEAST_OUTPUT};
use crate::notifications::{self, first_type, no_nats_data, Notification};
use crate::notify::{NotifyType, NOTIFY_LENGTH};
use crate::request::NAT_VALUE_LENGTH;
use crate::summary::MAX_KEPT;

pub trait WriterRules {
    /// "The writer checks 1, 2."
    fn order(&self) -> [Check; 2] {
        [Check::Argument, Check::Room]
    }

    /// 2 is "output under 128 octets (writer: 564)", whatever is asked for; so many octets would be written.
    fn least_output(&self, _needed: usize) -> usize {
        LEAST_OUTPUT
    }

    /// 1, of everything that is asked for.
    fn is_sound(&self, arguments: &Arguments) -> bool {
        self.is_pair_sound(arguments)
            && self.are_values_sound(arguments)
            && self.is_list_sound(arguments)
            && self.allows_cookie(arguments.cookie.len())
            && (!self.must_be_alone(&arguments.ask) || self.is_alone(arguments))
    }

    /// E8, of CLONE_IKE_SA_SUPPORTED and CLONE_IKE_SA: "each written only alone by the display's writer (else 1)".
    fn must_be_alone(&self, ask: &Ask) -> bool {
        ask.clone_supported || ask.clone
    }

    /// The same: nothing else is asked for beside the one of the two, a cookie neither.
    fn is_alone(&self, arguments: &Arguments) -> bool {
        let Ask { clone_supported, clone, .. } = arguments.ask;
        let alone = Ask { clone_supported, clone, ..Ask::default() };
        arguments.ask == alone && clone_supported != clone && arguments.cookie.is_empty()
    }

    /// 1 is "family not 4 or 6, IPv4 tail not zero"; "arguments for what isn't asked for, aren't looked at".
    fn is_pair_sound(&self, arguments: &Arguments) -> bool {
        !arguments.ask.no_nats || arguments.pair.is_sound()
    }

    /// "NAT source, NAT destination (both or neither)"; asking "for one NAT kind alone is answer 1"; "arguments for
    /// what isn't asked for, aren't looked at".
    fn are_values_sound(&self, arguments: &Arguments) -> bool {
        let Arguments { ask, nat_source, nat_destination, .. } = arguments;
        match (ask.nat_source, ask.nat_destination) {
            (true, true) => self.allows_value(nat_source) && self.allows_value(nat_destination),
            (false, false) => true,
            _ => false,
        }
    }

    /// 1 is "a lent NAT value not of 20 octets".
    fn allows_value(&self, value: &[u8]) -> bool {
        value.len() == NAT_VALUE_LENGTH
    }

    /// "Asking for more than 16, for addresses with NO_ADDITIONAL_ADDRESSES .. is answer 1"; "Places past a list's
    /// count .. aren't looked at".
    fn is_list_sound(&self, arguments: &Arguments) -> bool {
        let contradicts = arguments.ask.no_additional && arguments.ask.count > 0;
        self.allows_count(arguments.ask.count)
            && !contradicts
            && self.listed(arguments).iter().all(|address| self.is_address_sound(address))
    }

    /// "1 to 16 addresses".
    fn allows_count(&self, count: u16) -> bool {
        usize::from(count) <= MAX_KEPT
    }

    /// The addresses that are asked for.
    fn listed<'a>(&self, arguments: &'a Arguments) -> &'a [Address] {
        arguments.listed()
    }

    /// 1 is "family not 4 or 6, IPv4 tail not zero".
    fn is_address_sound(&self, address: &Address) -> bool {
        address.is_sound()
    }

    /// 1 is "a cookie to send not of 0 or 8 to 64 octets".
    fn allows_cookie(&self, size: usize) -> bool {
        may_be_sent(size)
    }

    /// "The writer writes, in this order, those asked for: update, NO_NATS_ALLOWED, NAT source, NAT destination
    /// (both or neither), NO_ADDITIONAL_ADDRESSES or 1 to 16 addresses, cookie"; E8: CLONE_IKE_SA_SUPPORTED and
    /// CLONE_IKE_SA, "no data".
    fn notifications(&self, arguments: &Arguments) -> Vec<Notification> {
        let Arguments { ask, nat_source, nat_destination, cookie, .. } = arguments;
        let (source, destination) = (nat_source.clone(), nat_destination.clone());
        let before_list = [
            (ask.update, (NotifyType::UPDATE_SA_ADDRESSES, vec![])),
            (ask.no_nats, (NotifyType::NO_NATS_ALLOWED, self.path(arguments))),
            (ask.nat_source, (NotifyType::NAT_DETECTION_SOURCE_IP, source)),
            (ask.nat_destination, (NotifyType::NAT_DETECTION_DESTINATION_IP, destination)),
            (ask.no_additional, (NotifyType::NO_ADDITIONAL_ADDRESSES, vec![])),
            (ask.clone_supported, (NotifyType::CLONE_IKE_SA_SUPPORTED, vec![])),
            (ask.clone, (NotifyType::CLONE_IKE_SA, vec![])),
        ];
        let asked = before_list.into_iter().filter(|(asked, _)| *asked);
        let mut notifications: Vec<_> = asked.map(|(_, notification)| notification).collect();
        notifications.extend(self.listed(arguments).iter().map(|it| self.additional(it)));
        if !cookie.is_empty() {
            notifications.push((NotifyType::COOKIE2, cookie.clone()));
        }
        notifications
    }

    /// "NO_NATS_ALLOWED holds source address, destination address, source port, destination port".
    fn path(&self, arguments: &Arguments) -> Vec<u8> {
        no_nats_data(&arguments.pair)
    }

    /// 16397 is ADDITIONAL_IP4_ADDRESS with 4 octets, 16398 is ADDITIONAL_IP6_ADDRESS with 16.
    fn additional(&self, address: &Address) -> Notification {
        let size = octet_count(address.family).unwrap_or(16);
        let notify_type = match address.family {
            4 => NotifyType::ADDITIONAL_IP4_ADDRESS,
            _ => NotifyType::ADDITIONAL_IP6_ADDRESS,
        };
        (notify_type, address.octets[..size].to_vec())
    }

    /// "The critical bit of known types, the reserved bits and the protocol ID are .. written as 0."
    fn header(&self, is_last: bool, notify_type: NotifyType, size: usize) -> [u8; NOTIFY_LENGTH] {
        notifications::header(is_last, notify_type, size)
    }

    /// "Asked for nothing, it answers first type 0", else that of a Notify.
    fn first_type(&self, chain: &[u8]) -> u8 {
        first_type(chain)
    }

    /// "Asked for nothing, it answers .. length 0", else that of all that is written.
    fn length(&self, chain: &[u8]) -> usize {
        chain.len()
    }

    /// "Otherwise octets past the reported length are untouched."
    fn output(&self, before: &[u8], chain: &[u8]) -> Vec<u8> {
        let mut output = before.to_vec();
        output.iter_mut().zip(chain).for_each(|(place, &octet)| *place = octet);
        output
    }

    /// "\"None\" leaves the output untouched and reports length 0."
    fn output_refused(&self, before: &[u8]) -> Vec<u8> {
        before.to_vec()
    }
}
