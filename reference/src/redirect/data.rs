// The data of the three notifications, read and written: the type, the length and the octets of an identity, then a
// nonce (RFC 5685, 9.2 and 9.3).
use super::{Notification, Refusal};
use crate::outcome::Place;
use crate::rules::RedirectRules;
use crate::show::hex;

/// What is read of data; nothing but the number where it isn't read.
#[derive(Debug, Clone, Copy, Default, PartialEq, Eq)]
pub struct DataRead<'a> {
    pub number: u8,
    pub identity_type: u8,
    pub identity: Place<'a>,
    /// Empty if there is none.
    pub nonce: Place<'a>,
}

/// What the writers are given.
#[derive(Debug, Clone, PartialEq, Eq)]
pub struct Writing {
    pub identity_type: u8,
    pub identity: Vec<u8>,
    /// Of a REDIRECT only; empty for none.
    pub nonce: Vec<u8>,
    /// What the output holds before the call.
    pub output: Vec<u8>,
}

#[derive(Debug, Clone, PartialEq, Eq)]
pub struct Written {
    pub number: u8,
    pub length: usize,
    /// The whole output after the call.
    pub output: Vec<u8>,
}

#[derive(Debug, Clone, Copy, PartialEq, Eq)]
pub enum WriteCheck {
    /// 2.
    Output,
    /// 30.
    Data,
}

/// The part of the data that begins at this octet; an empty one is as none.
fn part(data: &[u8], offset: usize, length: usize) -> Place<'_> {
    match length {
        0 => Place::default(),
        _ => Place::in_body(data, offset, length),
    }
}

pub fn read<'a>(
    of: Notification,
    data: &'a [u8],
    rules: &(impl RedirectRules + ?Sized),
) -> DataRead<'a> {
    let read = match of {
        Notification::RedirectSupported => Some((0, 0..0)),
        Notification::Redirect | Notification::RedirectedFrom => identity(of, data, rules),
    };
    let Some((identity_type, identity)) = read else { return malformed() };
    let behind = data.len() - identity.end;
    if !rules.allows_behind(of, behind) {
        return malformed();
    }
    let nonce = if of == Notification::Redirect { behind } else { 0 };
    DataRead {
        number: 0,
        identity_type,
        identity: part(data, identity.start, identity.len()),
        nonce: part(data, identity.end, nonce),
    }
}

fn malformed() -> DataRead<'static> {
    DataRead { number: Refusal::Malformed as u8, ..DataRead::default() }
}

/// The type of the identity and where it stands, unless the data is cut or they aren't allowed.
fn identity(
    of: Notification,
    data: &[u8],
    rules: &(impl RedirectRules + ?Sized),
) -> Option<(u8, std::ops::Range<usize>)> {
    let [identity_type, told, behind @ ..] = data else { return None };
    let length = rules.identity_length(usize::from(*told), behind.len())?;
    let allowed = rules.allows_identity(of, *identity_type, length);
    allowed.then_some((*identity_type, 2..2 + length))
}

pub fn write(
    of: Notification,
    writing: &Writing,
    rules: &(impl RedirectRules + ?Sized),
) -> Written {
    let octets = octets(of, writing);
    let fits = match of {
        Notification::RedirectSupported => true,
        _ => rules.allows_identity(of, writing.identity_type, writing.identity.len()),
    };
    let nonce_fits = of != Notification::Redirect || rules.writes_nonce(writing.nonce.len());
    let has_room = rules.has_room(of, writing.output.len(), octets.len());
    let failed = rules.order_of_writing().into_iter().find(|check| match check {
        WriteCheck::Output => !has_room,
        WriteCheck::Data => !fits || !nonce_fits,
    });
    let refused = failed.map(|check| match check {
        WriteCheck::Output => Refusal::OutputTooShort,
        WriteCheck::Data => Refusal::Malformed,
    });
    match refused {
        Some(refusal) => {
            Written { number: refusal as u8, length: 0, output: writing.output.clone() }
        }
        None => {
            let output = rules.output(&writing.output, &octets);
            Written { number: 0, length: octets.len(), output }
        }
    }
}

/// "data", of which the length is cut to an octet where it doesn't fit.
fn octets(of: Notification, writing: &Writing) -> Vec<u8> {
    let Writing { identity_type, identity, nonce, .. } = writing;
    let named = [&[*identity_type, identity.len() as u8], &identity[..]].concat();
    match of {
        Notification::Redirect => [named, nonce.clone()].concat(),
        Notification::RedirectedFrom => named,
        Notification::RedirectSupported => vec![],
    }
}

impl DataRead<'_> {
    /// Every field by name, to be shown.
    pub fn fields(&self) -> Vec<(String, String)> {
        let fields = [
            ("number", self.number.to_string()),
            ("identity type", self.identity_type.to_string()),
            ("identity", self.identity.show()),
            ("nonce", self.nonce.show()),
        ];
        fields.map(|(name, value)| (name.to_string(), value)).to_vec()
    }
}

impl Written {
    pub fn fields(&self) -> Vec<(String, String)> {
        let fields = [
            ("number", self.number.to_string()),
            ("length", self.length.to_string()),
            ("output", hex(&self.output)),
        ];
        fields.map(|(name, value)| (name.to_string(), value)).to_vec()
    }
}

#[cfg(test)]
mod tests {
    use super::*;
    use crate::rules::Plain;
    use Notification::{Redirect, RedirectSupported, RedirectedFrom};

    const ADDRESS: [u8; 6] = [1, 4, 192, 0, 2, 1];
    const NAME: [u8; 5] = [3, 3, b'a', b'.', b'b'];

    fn number(of: Notification, data: &[u8]) -> u8 {
        read(of, data, &Plain).number
    }

    #[test]
    fn the_examples_of_reading() {
        let told = read(Redirect, &ADDRESS, &Plain);
        assert_eq!((told.number, told.identity_type, told.nonce.length), (0, 1, 0));
        assert_eq!(told.identity, Place::in_body(&ADDRESS, 2, 4));
        assert_eq!(read(RedirectedFrom, &ADDRESS, &Plain), told);
        assert_eq!(read(Redirect, &NAME, &Plain).identity.octets, b"a.b");
        assert_eq!(number(RedirectedFrom, &NAME), 30);
        let with_nonce = [&ADDRESS[..], &[0xaa; 16]].concat();
        assert_eq!(read(Redirect, &with_nonce, &Plain).nonce.octets, [0xaa; 16]);
        assert_eq!(number(RedirectedFrom, &with_nonce), 30);
        for cut in [&[][..], &[1], &ADDRESS[..5]] {
            assert_eq!(number(Redirect, cut), 30);
            assert_eq!(number(RedirectedFrom, cut), 30);
        }
        assert_eq!((number(RedirectSupported, &[]), number(RedirectSupported, &[0])), (0, 30));
    }

    #[test]
    fn identities_have_the_lengths_of_their_types() {
        for identity_type in 0..=255 {
            for length in 0..=255 {
                let data = [&[identity_type, length][..], &vec![7; usize::from(length)]].concat();
                let fits = matches!((identity_type, length), (1, 4) | (2, 16));
                let named = identity_type == 3 && length > 0;
                assert_eq!(number(RedirectedFrom, &data) == 0, fits);
                assert_eq!(number(Redirect, &data) == 0, fits || named);
            }
        }
    }

    fn writing(identity_type: u8, identity: &[u8], nonce: usize, room: usize) -> Writing {
        let nonce = (0..nonce).map(|place| place as u8).collect();
        Writing { identity_type, identity: identity.to_vec(), nonce, output: vec![0xa5; room] }
    }

    #[test]
    fn the_examples_of_writing() {
        let named = writing(3, b"a.b", 16, 513);
        let written = write(Redirect, &named, &Plain);
        assert_eq!((written.number, written.length), (0, 21));
        assert_eq!(written.output[..5], NAME);
        assert_eq!(written.output[5..21], named.nonce);
        assert!(written.output[21..].iter().all(|&octet| octet == 0xa5));
        let short = writing(1, &[192, 0, 2, 1], 0, 512);
        for of in Notification::ALL {
            let written = write(of, &short, &Plain);
            assert_eq!((written.number, written.length, written.output), (2, 0, vec![0xa5; 512]));
        }
        assert_eq!(write(RedirectedFrom, &named, &Plain).number, 30);
        assert_eq!(write(RedirectSupported, &named, &Plain).number, 0);
        for (nonce, number) in [(0, 0), (1, 30), (15, 30), (16, 0), (256, 0), (257, 30)] {
            assert_eq!(write(Redirect, &writing(1, &[1; 4], nonce, 600), &Plain).number, number);
            let from = write(RedirectedFrom, &writing(1, &[1; 4], nonce, 600), &Plain);
            assert_eq!((from.number, from.length), (0, 6));
        }
        let longest = write(Redirect, &writing(3, &[1; 255], 256, 513), &Plain);
        assert_eq!((longest.number, longest.length), (0, 513));
        assert_eq!(write(Redirect, &writing(3, &[1; 256], 0, 600), &Plain).number, 30);
        assert_eq!(write(Redirect, &writing(3, &[1; 256], 0, 512), &Plain).number, 2);
    }
}
