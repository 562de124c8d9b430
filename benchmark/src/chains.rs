// The payload chains that the rows are about; each begins with a payload of the type that is told.
pub const NOTIFY: u8 = 41;
pub const SKIPPED: u8 = 33;

const NAT_DETECTION_SOURCE_IP: u16 = 16388;
const NAT_DETECTION_DESTINATION_IP: u16 = 16389;
const ADDITIONAL_IP4_ADDRESS: u16 = 16397;
const ADDITIONAL_IP6_ADDRESS: u16 = 16398;
const UPDATE_SA_ADDRESSES: u16 = 16400;
const COOKIE2: u16 = 16401;
const NO_NATS_ALLOWED: u16 = 16402;
const CLONE_IKE_SA: u16 = 16433;
const UNKNOWN: u16 = 40000;

pub const COOKIE: [u8; 16] = [1, 2, 3, 4, 5, 6, 7, 8, 9, 10, 11, 12, 13, 14, 15, 16];
/// Of the gateway's own check.
pub const CHECK_COOKIE: [u8; 16] = [0x61; 16];
pub const NAT_SOURCE: [u8; 20] = [0x51; 20];
pub const NAT_DESTINATION: [u8; 20] = [0x52; 20];
pub const ADDITIONAL: [[u8; 4]; 2] = [[203, 0, 113, 10], [203, 0, 113, 11]];

/// Notifications, by type and data.
fn notifications(listed: &[(u16, &[u8])]) -> Vec<u8> {
    let mut body = Vec::new();
    for (place, (kind, data)) in listed.iter().enumerate() {
        let next = if place + 1 == listed.len() { 0 } else { NOTIFY };
        body.extend([next, 0]);
        body.extend((8 + data.len() as u16).to_be_bytes());
        body.extend([0, 0]);
        body.extend(kind.to_be_bytes());
        body.extend(*data);
    }
    body
}

/// The chain of six notifications, of 112 octets.
pub fn update() -> Vec<u8> {
    notifications(&[
        (UPDATE_SA_ADDRESSES, &[]),
        (NAT_DETECTION_SOURCE_IP, &NAT_SOURCE),
        (NAT_DETECTION_DESTINATION_IP, &NAT_DESTINATION),
        (ADDITIONAL_IP4_ADDRESS, &ADDITIONAL[0]),
        (ADDITIONAL_IP4_ADDRESS, &ADDITIONAL[1]),
        (COOKIE2, &COOKIE),
    ])
}

/// The response to it, of 80 octets.
pub fn response() -> Vec<u8> {
    notifications(&[
        (NAT_DETECTION_SOURCE_IP, &NAT_SOURCE),
        (NAT_DETECTION_DESTINATION_IP, &NAT_DESTINATION),
        (COOKIE2, &COOKIE),
    ])
}

/// The response to a check with its cookie, of 24 octets.
pub fn check_response() -> Vec<u8> {
    notifications(&[(COOKIE2, &CHECK_COOKIE)])
}

/// A rekey of an IKE SA with CLONE_IKE_SA, of 160 octets: the notification, SA, nonce and key exchange, whose
/// content is skipped.
pub fn rekey() -> Vec<u8> {
    let mut body = notifications(&[(CLONE_IKE_SA, &[])]);
    body[0] = SKIPPED;
    for (next, length) in [(40, 44), (34, 36), (0, 72)] {
        body.extend([next, 0, 0, length]);
        body.extend(vec![7; usize::from(length) - 4]);
    }
    body
}

/// An update whose NO_NATS_ALLOWED tells other addresses and ports than any packet here.
pub fn altered() -> Vec<u8> {
    notifications(&[(UPDATE_SA_ADDRESSES, &[]), (NO_NATS_ALLOWED, &[9; 12])])
}

/// The most additional addresses that are kept, of the longer family.
pub fn full_list() -> Vec<u8> {
    notifications(&[(ADDITIONAL_IP6_ADDRESS, &[7; 16][..]); 16])
}

pub fn unknown_notifies(octets: usize) -> Vec<u8> {
    notifications(&vec![(UNKNOWN, &[][..]); octets / 8])
}

/// The shortest payloads, all skipped.
pub fn skipped(octets: usize) -> Vec<u8> {
    let mut body = [SKIPPED, 0, 0, 4].repeat(octets / 4);
    body[octets - 4] = 0;
    body
}

/// The update, its first payload shorter than a header.
pub fn malformed() -> Vec<u8> {
    let mut body = update();
    body[3] = 3;
    body
}
