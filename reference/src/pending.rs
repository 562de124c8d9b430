// The return routability check that an IKE record may have pending: the cookie of our request and its ID.

pub const MOST_COOKIE: usize = 64;

#[repr(C)]
#[derive(Debug, Clone, Copy, PartialEq, Eq)]
pub struct PendingCheck {
    /// Of the cookie; 0 where there is no check.
    pub length: u8,
    /// The cookie, and 0 past its length.
    pub octets: [u8; MOST_COOKIE],
    /// The ID of our request.
    pub id: u32,
}

impl PendingCheck {
    pub const NONE: PendingCheck = PendingCheck { length: 0, octets: [0; MOST_COOKIE], id: 0 };

    /// With a cookie of at most 64 octets; of a longer one, with as many.
    pub fn of(cookie: &[u8], id: u32) -> Self {
        let mut octets = [0; MOST_COOKIE];
        octets.iter_mut().zip(cookie).for_each(|(kept, octet)| *kept = *octet);
        PendingCheck { length: cookie.len().min(MOST_COOKIE) as u8, octets, id }
    }

    /// As many octets as the length says, if there are so many.
    pub fn cookie(&self) -> Option<&[u8]> {
        self.octets.get(..usize::from(self.length))
    }
}
