// Which chains are plainly read: told from their payloads alone, not by writing them again.
use crate::chain::{self, Exchange, Payload, NOTIFY};
use crate::notify::NotifyType;
use crate::reader::{self, Answer};
use crate::rules::{ChainRules, Plain, RoundTripRules, Rules};

/// Whether the chain is read, and has what the writer writes and nothing else.
pub fn plainly_read(first: u8, body: &[u8], rules: &impl Rules) -> bool {
    if reader::read(first, body, rules.chain()).answer != Answer::Read {
        return false;
    }
    let rules = rules.round_trips();
    rules.written_types(&chain::split(first, body).payloads).is_some_and(|types| {
        let times = |kind| types.iter().filter(|&&it| it == kind).count();
        let sources = times(NotifyType::NAT_DETECTION_SOURCE_IP);
        let destinations = times(NotifyType::NAT_DETECTION_DESTINATION_IP);
        let addresses = types.iter().filter(|it| it.is_additional_address()).count();
        rules.has_order(&types)
            && rules.has_kinds(sources, destinations)
            && rules.has_few(addresses)
    })
}

/// Whether the chain is read as that of a request to clone, and has what the writer writes for one and nothing else.
pub fn plainly_read_as_clone(first: u8, body: &[u8], rules: &impl Rules) -> bool {
    let reading = reader::read_in(Exchange::Rekey, first, body, rules.chain());
    let payloads = chain::split(first, body).payloads;
    reading.answer == Answer::Read && rules.round_trips().is_plain_clone(&payloads)
}

/// The notify type of a payload, if it is a Notify.
pub fn notify_type(payload: &Payload) -> Option<NotifyType> {
    let is_notify = payload.payload_type == NOTIFY;
    let notify = is_notify.then(|| Plain.notify(payload))?;
    notify.map(|notify| notify.notify_type)
}

/// None of types that the writer never writes.
pub fn place_in_order(notify_type: NotifyType) -> Option<u8> {
    match notify_type {
        NotifyType::UPDATE_SA_ADDRESSES => Some(0),
        NotifyType::NO_NATS_ALLOWED => Some(1),
        NotifyType::NAT_DETECTION_SOURCE_IP => Some(2),
        NotifyType::NAT_DETECTION_DESTINATION_IP => Some(3),
        NotifyType::NO_ADDITIONAL_ADDRESSES => Some(4),
        NotifyType::ADDITIONAL_IP4_ADDRESS | NotifyType::ADDITIONAL_IP6_ADDRESS => Some(4),
        NotifyType::COOKIE2 => Some(5),
        _ => None,
    }
}

#[cfg(test)]
mod tests {
    use super::*;
    use crate::notifications::{first_type, octets};

    const UPDATE: (NotifyType, &[u8]) = (NotifyType::UPDATE_SA_ADDRESSES, &[]);
    const PATH: (NotifyType, &[u8]) = (NotifyType::NO_NATS_ALLOWED, &[1; 12]);
    const SOURCE: (NotifyType, &[u8]) = (NotifyType::NAT_DETECTION_SOURCE_IP, &[2; 20]);
    const DESTINATION: (NotifyType, &[u8]) = (NotifyType::NAT_DETECTION_DESTINATION_IP, &[3; 20]);
    const NONE: (NotifyType, &[u8]) = (NotifyType::NO_ADDITIONAL_ADDRESSES, &[]);
    const IPV4: (NotifyType, &[u8]) = (NotifyType::ADDITIONAL_IP4_ADDRESS, &[4; 4]);
    const IPV6: (NotifyType, &[u8]) = (NotifyType::ADDITIONAL_IP6_ADDRESS, &[6; 16]);
    const COOKIE: (NotifyType, &[u8]) = (NotifyType::COOKIE2, &[7; 8]);
    const MOBIKE: (NotifyType, &[u8]) = (NotifyType::MOBIKE_SUPPORTED, &[]);

    fn is_plain(notifications: &[(NotifyType, &[u8])]) -> bool {
        let body = octets(notifications);
        plainly_read(first_type(&body), &body, &Plain)
    }

    #[test]
    fn the_order_of_the_writer() {
        assert!(is_plain(&[]));
        assert!(is_plain(&[UPDATE, PATH, SOURCE, DESTINATION, NONE, COOKIE]));
        assert!(is_plain(&[SOURCE, DESTINATION, IPV6, IPV4, IPV6]));
        assert!(!is_plain(&[PATH, UPDATE]));
        assert!(!is_plain(&[DESTINATION, SOURCE]));
        assert!(!is_plain(&[COOKIE, NONE]));
        assert!(!is_plain(&[IPV4, COOKIE, IPV4]));
        assert!(!is_plain(&[UPDATE, MOBIKE]));
        assert!(!is_plain(&[UPDATE, (NotifyType(16403), &[])]));
    }

    #[test]
    fn a_clone_is_plainly_read_alone() {
        let clone: (NotifyType, &[u8]) = (NotifyType::CLONE_IKE_SA, &[]);
        let supported: (NotifyType, &[u8]) = (NotifyType::CLONE_IKE_SA_SUPPORTED, &[]);
        let is_plain_clone = |notifications: &[(NotifyType, &[u8])]| {
            let body = octets(notifications);
            plainly_read_as_clone(first_type(&body), &body, &Plain)
        };
        assert!(is_plain_clone(&[clone]));
        assert!(!is_plain(&[clone]) && !is_plain(&[supported]));
        for others in [&[][..], &[supported], &[clone, clone], &[UPDATE, clone], &[clone, MOBIKE]] {
            assert!(!is_plain_clone(others));
        }
        assert!(!is_plain_clone(&[(clone.0, &[1])]));
        let mut changed = octets(&[clone]);
        changed[4] = 1;
        assert!(!plainly_read_as_clone(41, &changed, &Plain));
    }

    #[test]
    fn nat_kinds_and_addresses() {
        assert!(!is_plain(&[SOURCE]));
        assert!(!is_plain(&[DESTINATION]));
        assert!(!is_plain(&[SOURCE, SOURCE, DESTINATION]));
        assert!(is_plain(&[IPV4; 16]));
        assert!(!is_plain(&[IPV4; 17]));
    }

    #[test]
    fn header_fields_and_other_payloads() {
        let update = octets(&[UPDATE]);
        for bit in 0..8 {
            let mut changed = update.clone();
            changed[1] = 1 << bit;
            assert!(!plainly_read(41, &changed, &Plain));
        }
        let mut changed = update.clone();
        changed[4] = 1;
        assert!(!plainly_read(41, &changed, &Plain));
        assert!(!plainly_read(41, &[&update[..], &[0]].concat(), &Plain));
        assert!(!plainly_read(41, &update[..7], &Plain));
        assert!(!plainly_read(33, &[0, 0, 0, 4], &Plain));
        assert!(!plainly_read(200, &[0, 0, 0, 4], &Plain));
    }
}
