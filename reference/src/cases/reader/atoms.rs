// Single payloads to make chains of: every kind that the reader tells apart.
use super::draft::Draft;
use crate::notify::NotifyType;
use crate::rng::Rng;

/// Notify types of other documents, of errors, and next to the known ones.
const UNKNOWN_NOTIFY_TYPES: [u16; 25] = [
    0, 1, 7, 35, 40, 41, 43, 255, 256, 4112, 8192, 16383, 16384, 16387, 16390, 16395, 16403, 16406,
    16407, 16408, 16432, 16433, 32784, 40960, 65535,
];

/// The allowed data sizes of a known notify type; of MOBIKE_SUPPORTED, some.
pub fn allowed_sizes(notify_type: NotifyType) -> &'static [usize] {
    match notify_type {
        NotifyType::NAT_DETECTION_SOURCE_IP | NotifyType::NAT_DETECTION_DESTINATION_IP => &[20],
        NotifyType::MOBIKE_SUPPORTED => &[0, 1, 4, 20, 300],
        NotifyType::ADDITIONAL_IP4_ADDRESS => &[4],
        NotifyType::ADDITIONAL_IP6_ADDRESS => &[16],
        NotifyType::COOKIE2 => &[8, 9, 16, 32, 63, 64],
        NotifyType::NO_NATS_ALLOWED => &[12, 36],
        _ => &[0],
    }
}

pub fn allowed_data(rng: &mut Rng, notify_type: NotifyType) -> Vec<u8> {
    let mut size = rng.pick(allowed_sizes(notify_type));
    if notify_type == NotifyType::COOKIE2 && rng.one_in(2) {
        size = rng.between(8, 64);
    }
    rng.octets(size)
}

/// A sound notification; the bits that are ignored on reading are now and then set.
pub fn known_notify(rng: &mut Rng, notify_type: NotifyType) -> Draft {
    let data = allowed_data(rng, notify_type);
    let mut draft = Draft::notify(notify_type, &data);
    set_ignored_bits(rng, &mut draft);
    draft
}

/// An ADDITIONAL address of either family.
pub fn address(rng: &mut Rng) -> Draft {
    let families = [NotifyType::ADDITIONAL_IP4_ADDRESS, NotifyType::ADDITIONAL_IP6_ADDRESS];
    let notify_type = rng.pick(&families);
    known_notify(rng, notify_type)
}

pub fn unknown_notify(rng: &mut Rng) -> Draft {
    let spi_size = if rng.one_in(2) { 0 } else { rng.pick(&[1, 4, 8, 20, 255]) };
    let rest_size = usize::from(spi_size) + rng.pick(&[0, 0, 1, 4, 20, 64]);
    let rest = rng.octets(rest_size);
    let mut draft = Draft::notify_with_spi(unknown_notify_type(rng), spi_size, &rest);
    set_ignored_bits(rng, &mut draft);
    draft
}

pub fn unknown_notify_type(rng: &mut Rng) -> NotifyType {
    let notify_type = match rng.below(8) {
        0 => NotifyType(rng.next_u64() as u16),
        1 => NotifyType(rng.between(16380, 16410) as u16),
        _ => NotifyType(rng.pick(&UNKNOWN_NOTIFY_TYPES)),
    };
    if notify_type.is_known() {
        NotifyType(16403)
    } else {
        notify_type
    }
}

/// A payload of a known type that the reader skips.
pub fn skipped(rng: &mut Rng) -> Draft {
    let payload_type = rng.pick(&[33, 34, 35, 36, 37, 38, 39, 40, 42, 43, 44, 45, 46, 47, 48]);
    let flags = rng.pick(&[0, 0, 0x80, 0x7f, 0xff]);
    let size = rng.pick(&[0, 0, 1, 4, 12]);
    Draft::payload(payload_type, flags, rng.octets(size))
}

/// A payload of an unknown type, not critical.
pub fn unknown_payload(rng: &mut Rng) -> Draft {
    let flags = rng.pick(&[0, 0, 0x01, 0x40, 0x7f]);
    let size = rng.pick(&[0, 0, 1, 4, 12]);
    Draft::payload(unknown_type(rng), flags, rng.octets(size))
}

pub fn unknown_type(rng: &mut Rng) -> u8 {
    if rng.one_in(2) {
        rng.pick(&[1, 2, 32, 49, 53, 54, 128, 200, 255])
    } else {
        // 1 to 32 and 49 to 255.
        let place = rng.between(1, 239) as u8;
        if place <= 32 {
            place
        } else {
            place + 16
        }
    }
}

fn set_ignored_bits(rng: &mut Rng, notify: &mut Draft) {
    if rng.one_in(4) {
        notify.flags = rng.octet();
    }
    if rng.one_in(4) {
        notify.content[0] = rng.octet();
    }
}
