// The parts of the body that the library hands out, the cookie and the NAT detection values: its C interface.
use reference::outcome::Place;

#[repr(C)]
pub struct COctets {
    pub start: *const u8,
    pub length: usize,
}

#[link(name = "unmavreth", kind = "static")]
extern "C" {
    fn unmavreth_cookie(
        out: *mut COctets,
        body: *const u8,
        body_len: usize,
        at: u16,
        cookie_len: u16,
    );
    fn unmavreth_nat_value(out: *mut COctets, body: *const u8, body_len: usize, at: u16);
}

/// The cookie that the library hands out for this offset and length.
pub fn hand_out(body: &[u8], at: u16, length: u16) -> Place<'_> {
    let mut out = COctets { start: body.as_ptr(), length: 0 };
    // SAFETY: start and length are those of a slice that outlives the call, and so is what `out`
    // holds, an empty part of it.
    unsafe { unmavreth_cookie(&mut out, body.as_ptr(), body.len(), at, length) };
    part(body, out)
}

/// The NAT detection value that it hands out for this offset.
pub fn nat_value(body: &[u8], at: u16) -> Place<'_> {
    let mut out = COctets { start: body.as_ptr(), length: 0 };
    // SAFETY: as in `hand_out`.
    unsafe { unmavreth_nat_value(&mut out, body.as_ptr(), body.len(), at) };
    part(body, out)
}

/// A part that was handed out, where its start and its length say that it is. Nothing is read
/// through its start.
pub fn part(body: &[u8], out: COctets) -> Place<'_> {
    match out.length {
        0 => Place::default(),
        length => {
            let offset = out.start.addr().wrapping_sub(body.as_ptr().addr());
            Place::in_body(body, offset, length)
        }
    }
}
