//! What the calls give back beside a bare number.

/// What [`handle`](crate::handle) gives: all but the tables and the response's octets.
#[repr(C)]
#[must_use = "its number may be a refusal"]
#[derive(Debug, Clone, Copy, PartialEq, Eq)]
pub struct Reply {
    pub(crate) number: u8,
    pub(crate) update: u8,
    pub(crate) list: u8,
    pub(crate) first: u8,
    pub(crate) left_off: u16,
    pub(crate) payloads: u16,
    pub(crate) offset: u16,
    pub(crate) ordinal: u16,
    pub(crate) cookie: u16,
    pub(crate) cookie_len: u16,
    pub(crate) length: u16,
}

/// What [`write`](crate::write) gives beside the octets.
#[repr(C)]
#[must_use = "its number may be a refusal"]
#[derive(Debug, Clone, Copy, PartialEq, Eq)]
pub struct Written {
    pub(crate) number: u8,
    pub(crate) first: u8,
    pub(crate) length: u16,
}

/// What [`assess`](crate::assess) and [`check`](crate::check) give.
#[repr(C)]
#[must_use = "its number may be a refusal"]
#[derive(Debug, Clone, Copy, PartialEq, Eq)]
pub struct Assessment {
    pub(crate) number: u8,
    pub(crate) outcome: u8,
    pub(crate) payloads: u16,
    pub(crate) offset: u16,
    pub(crate) ordinal: u16,
    pub(crate) tally: u32,
    pub(crate) cookie: u16,
    pub(crate) cookie_len: u16,
}

/// What [`clone_ike`](crate::clone_ike) gives: all but the table and the response's octets.
#[repr(C)]
#[must_use = "its number may be a refusal"]
#[derive(Debug, Clone, Copy, PartialEq, Eq)]
pub struct CloneReply {
    pub(crate) number: u8,
    pub(crate) first: u8,
    pub(crate) payloads: u16,
    pub(crate) offset: u16,
    pub(crate) ordinal: u16,
    pub(crate) length: u16,
}

/// A part of lent octets: where it begins and how many there are.
#[repr(C)]
#[derive(Clone, Copy)]
pub(crate) struct Part {
    pub(crate) start: *const u8,
    pub(crate) octets: usize,
}

laid_out!(Reply, size 18, align 2, {
    number: 0, update: 1, list: 2, first: 3, left_off: 4, payloads: 6, offset: 8, ordinal: 10,
    cookie: 12, cookie_len: 14, length: 16,
});
laid_out!(Written, size 4, align 2, { number: 0, first: 1, length: 2 });
laid_out!(Assessment, size 16, align 4, {
    number: 0, outcome: 1, payloads: 2, offset: 4, ordinal: 6, tally: 8, cookie: 12, cookie_len: 14,
});
laid_out!(CloneReply, size 10, align 2, {
    number: 0, first: 1, payloads: 2, offset: 4, ordinal: 6, length: 8,
});
laid_out!(Part, size 16, align 8, { start: 0, octets: 8 });
