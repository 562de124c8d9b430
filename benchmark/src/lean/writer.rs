// Writes a request at the initiator's end.
use super::addresses::{is_address_sound, is_sound};
use super::notify::*;
use unmavreth::limits::REQUEST_ROOM;
use unmavreth::{Ask, Draft, Pair};

#[derive(Default)]
pub struct Written {
    pub number: u8,
    pub first: u8,
    pub length: u16,
}

#[inline]
pub fn write(draft: &Draft<'_>, out: &mut [u8]) -> Written {
    if !may_be_asked(draft) {
        return Written { number: 1, ..Written::default() };
    }
    let Some(out) = out.first_chunk_mut::<REQUEST_ROOM>() else {
        return Written { number: 2, ..Written::default() };
    };
    let mut pen = Pen { out, at: 0, last: 0 };
    let ask = &draft.ask;
    if ask.update {
        pen.put(UPDATE_SA_ADDRESSES, &[]);
    }
    if ask.no_nats {
        pen.put_no_nats(&draft.pair);
    }
    if ask.nat_source {
        pen.put(NAT_DETECTION_SOURCE_IP, draft.nat_source);
        pen.put(NAT_DETECTION_DESTINATION_IP, draft.nat_destination);
    }
    if ask.no_additional {
        pen.put(NO_ADDITIONAL_ADDRESSES, &[]);
    }
    for address in &draft.addresses[..usize::from(ask.count)] {
        match address.family {
            4 => pen.put(ADDITIONAL_IP4_ADDRESS, &address.octets[..4]),
            _ => pen.put(ADDITIONAL_IP6_ADDRESS, &address.octets),
        }
    }
    if !draft.cookie.is_empty() {
        pen.put(COOKIE2, draft.cookie);
    }
    if ask.clone_supported {
        pen.put(CLONE_IKE_SA_SUPPORTED, &[]);
    }
    if ask.clone {
        pen.put(CLONE_IKE_SA, &[]);
    }
    pen.end()
}

/// Check 1.
#[inline]
fn may_be_asked(draft: &Draft<'_>) -> bool {
    let ask = &draft.ask;
    let values = draft.nat_source.len() == 20 && draft.nat_destination.len() == 20;
    let Some(listed) = draft.addresses.get(..usize::from(ask.count)) else { return false };
    (!ask.no_nats || is_sound(&draft.pair))
        && ask.nat_source == ask.nat_destination
        && (!ask.nat_source || values)
        && (!ask.no_additional || listed.is_empty())
        && listed.iter().all(is_address_sound)
        && may_be_sent(draft.cookie.len())
        && (!(ask.clone_supported || ask.clone) || is_alone(draft))
}

/// Whether nothing but one of the two notifications of cloning is asked for.
#[cold]
fn is_alone(draft: &Draft<'_>) -> bool {
    let &Ask { update, no_nats, nat_source, no_additional, count, clone_supported, clone, .. } =
        &draft.ask;
    !(update || no_nats || nat_source || no_additional)
        && count == 0
        && clone_supported != clone
        && draft.cookie.is_empty()
}

/// The output, where the next payload goes, and where the last began.
struct Pen<'a> {
    out: &'a mut [u8; REQUEST_ROOM],
    at: usize,
    last: usize,
}

impl Pen<'_> {
    /// A Notify that has another one after it.
    #[inline]
    fn put(&mut self, kind: u16, data: &[u8]) {
        let rest = &mut self.out[self.at..];
        let (head, rest) = rest.split_at_mut(8);
        head.copy_from_slice(&header(NOTIFY, kind, data.len()));
        rest[..data.len()].copy_from_slice(data);
        self.last = self.at;
        self.at = self.at.wrapping_add(data.len().wrapping_add(8));
    }

    fn put_no_nats(&mut self, pair: &Pair) {
        let octets = if pair.family == 4 { 4 } else { 16 };
        let mut data = [0; 36];
        data[..octets].copy_from_slice(&pair.source[..octets]);
        data[octets..2 * octets].copy_from_slice(&pair.destination[..octets]);
        data[2 * octets..][..2].copy_from_slice(&pair.source_port.to_be_bytes());
        data[2 * octets + 2..][..2].copy_from_slice(&pair.destination_port.to_be_bytes());
        self.put(NO_NATS_ALLOWED, &data[..2 * octets + 4]);
    }

    /// The last payload has none after it.
    #[inline]
    fn end(self) -> Written {
        if self.at == 0 {
            return Written::default();
        }
        self.out[self.last] = 0;
        Written { number: 0, first: NOTIFY, length: self.at as u16 }
    }
}
