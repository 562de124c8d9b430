// The cookie as it is handed out: a part of the lent body, by the place and length that were told.
use crate::outcome::Place;
use crate::rules::PartRules;

/// A place and a length that were asked for, and the part that was handed out for them.
#[derive(Debug, Clone, PartialEq, Eq)]
pub struct HandedOut<'a> {
    pub at: u16,
    pub length: u16,
    pub part: Place<'a>,
}

/// What a program hands out for the place that it told, then for hostile ones.
pub fn handed_out<'a>(
    body: &'a [u8],
    told: Place,
    hand_out: impl Fn(u16, u16) -> Place<'a>,
) -> Vec<HandedOut<'a>> {
    let (at, length) = told.as_told();
    let asked = [(at, length)].into_iter().chain(hostile(body, at, length));
    asked.map(|(at, length)| HandedOut { at, length, part: hand_out(at, length) }).collect()
}

/// Places and lengths about those told, about the body's end and about the greatest numbers.
fn hostile(body: &[u8], at: u16, length: u16) -> [(u16, u16); 14] {
    let size = u16::try_from(body.len()).unwrap_or(u16::MAX);
    let left = size.wrapping_sub(at);
    [
        (at, length.wrapping_add(1)),
        (at, left),
        (at, left.wrapping_add(1)),
        (at, at.wrapping_neg()),
        (at, u16::MAX),
        (size, 0),
        (size, 1),
        (size.wrapping_sub(1), 1),
        (size.wrapping_sub(1), 2),
        (0, size),
        (0, size.wrapping_add(1)),
        (size.wrapping_add(1), 0),
        (1, u16::MAX),
        (u16::MAX, u16::MAX),
    ]
}

/// The part at this place; empty if it has no octets.
pub fn hand_out<'a>(
    body: &'a [u8],
    at: u16,
    length: u16,
    rules: &(impl PartRules + ?Sized),
) -> Place<'a> {
    let (at, length) = (usize::from(at), usize::from(length));
    if length == 0 || rules.is_none(at) {
        Place::default()
    } else if rules.ends_inside(body, at, length) {
        rules.part(body, at, length)
    } else {
        rules.part_past_end(body, at)
    }
}

#[cfg(test)]
mod tests {
    use super::*;
    use crate::rules::Plain;

    const BODY: [u8; 10] = [0, 1, 2, 3, 4, 5, 6, 7, 8, 9];

    fn octets(at: u16, length: u16) -> &'static [u8] {
        hand_out(&BODY, at, length, &Plain).octets
    }

    #[test]
    fn a_part_that_ends_inside_is_handed_out() {
        assert_eq!(octets(8, 2), [8, 9]);
        assert_eq!(octets(1, 9), &BODY[1..]);
        assert_eq!(hand_out(&BODY, 3, 4, &Plain), Place::in_body(&BODY, 3, 4));
    }

    #[test]
    fn none_and_what_runs_past_the_end_are_empty() {
        let empty =
            [(0, 0), (0, 10), (10, 0), (65535, 0), (8, 3), (10, 1), (8, 65534), (65535, 65535)];
        for (at, length) in empty {
            assert_eq!(hand_out(&BODY, at, length, &Plain), Place::default());
        }
    }
}
