// What a request gives back, in the form in which the two programs are compared.
use crate::outcome::Place;
use crate::show;

#[derive(Debug, Clone, Default, PartialEq, Eq)]
pub struct Reply<'a> {
    pub number: u8,
    /// 0 none, 1 applied, 2 stale.
    pub update: u8,
    /// 0 none, 1 replaced, 2 stale.
    pub list: u8,
    pub left_off: usize,
    pub payloads: usize,
    /// Told with 61 to 65 and 7.
    pub offset: usize,
    /// The payload's, told with these too.
    pub ordinal: usize,
    pub cookie: Place<'a>,
    /// The cookie as it is handed out for that place.
    pub handed_out: Place<'a>,
    /// The response's first type.
    pub first: u8,
    /// The response's length.
    pub length: usize,
}

/// A reply, with the whole output after the call.
#[derive(Debug, Clone, PartialEq, Eq)]
pub struct Handled<'a> {
    pub reply: Reply<'a>,
    pub output: Vec<u8>,
}

/// What was written, and the octets after it; where its length is past the output, all and none.
pub fn written_and_rest(output: &[u8], length: usize) -> (&[u8], &[u8]) {
    output.split_at_checked(length).unwrap_or((output, &[]))
}

impl<'a> Handled<'a> {
    fn parts(&self) -> (&[u8], &[u8]) {
        written_and_rest(&self.output, self.reply.length)
    }

    pub fn response(&self) -> &[u8] {
        self.parts().0
    }

    /// Whether the octets after the response are what they were.
    pub fn leaves_rest(&self, before: &[u8]) -> bool {
        before.len() == self.output.len() && before.ends_with(self.parts().1)
    }

    /// Whether another call gave the same answer, the cookie by its octets.
    pub fn same_answer(&self, other: &Handled) -> bool {
        let Reply { cookie, handed_out, .. } = other.reply;
        let one = Reply { cookie, handed_out, ..self.reply.clone() };
        let octets = [self.reply.cookie.octets, self.reply.handed_out.octets];
        one == other.reply && octets == [cookie.octets, handed_out.octets]
    }

    /// Every field by name, to be shown.
    pub fn fields(&self) -> Vec<(String, String)> {
        let reply = &self.reply;
        let (response, rest) = self.parts();
        let fields = [
            ("number", reply.number.to_string()),
            ("update", reply.update.to_string()),
            ("list", reply.list.to_string()),
            ("left off", reply.left_off.to_string()),
            ("payloads", reply.payloads.to_string()),
            ("offset", reply.offset.to_string()),
            ("ordinal", reply.ordinal.to_string()),
            ("cookie", reply.cookie.show()),
            ("cookie handed out", reply.handed_out.show()),
            ("response's first type", reply.first.to_string()),
            ("response's length", reply.length.to_string()),
            ("response", show::hex(response)),
            ("rest of the output", show::hex(rest)),
        ];
        fields.map(|(name, value)| (name.to_string(), value)).to_vec()
    }
}
