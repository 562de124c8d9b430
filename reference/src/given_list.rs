// The list that is given of what was seen: the octets at each place below the count, then zeros.
use crate::address::Address;
use crate::hostile_lists::hostile;
use crate::rules::PartRules;
use crate::show;
use crate::summary::MAX_KEPT;

/// What a host says was seen of the additional addresses.
#[derive(Debug, Clone, Copy, Default, PartialEq, Eq)]
pub struct SeenList {
    pub count: u16,
    pub offsets: [u16; MAX_KEPT],
    pub families: [u8; MAX_KEPT],
}

/// What was said, and the list that was given for it.
#[derive(Debug, Clone, PartialEq, Eq)]
pub struct GivenList {
    pub seen: SeenList,
    pub list: [Address; MAX_KEPT],
}

/// What a program gives for hostile changes of the list that it told.
pub fn given_lists(
    body: &[u8],
    told: SeenList,
    give: impl Fn(SeenList) -> [Address; MAX_KEPT],
) -> Vec<GivenList> {
    hostile(body, told).into_iter().map(|seen| GivenList { seen, list: give(seen) }).collect()
}

/// The addresses below the count, at most sixteen; zeros in the places after them.
pub fn give(body: &[u8], seen: SeenList, rules: &(impl PartRules + ?Sized)) -> [Address; MAX_KEPT] {
    let mut list = [Address::ZERO; MAX_KEPT];
    let listed = rules.listed(usize::from(seen.count));
    for (place, address) in list[..listed].iter_mut().enumerate() {
        *address = rules.address(body, usize::from(seen.offsets[place]), seen.families[place]);
    }
    list
}

impl GivenList {
    /// What was said, and of the list the places that aren't all 0.
    pub fn field(&self) -> (String, String) {
        let SeenList { count, offsets, families } = self.seen;
        let said =
            offsets.iter().zip(families).map(|(place, family)| format!("{family} at {place}"));
        let said: Vec<String> = said.collect();
        let given = self.list.iter().enumerate().filter(|(_, address)| **address != Address::ZERO);
        let given = given.map(|(place, address)| format!("{place}: {}", show::address(address)));
        let given: Vec<String> = given.collect();
        let name = format!("list given for count {count}, families {}", said.join(", "));
        (name, format!("[{}]", given.join("; ")))
    }
}

#[cfg(test)]
mod tests {
    use super::*;
    use crate::rules::Plain;

    const BODY: [u8; 20] = [0, 1, 2, 3, 4, 5, 6, 7, 8, 9, 10, 11, 12, 13, 14, 15, 16, 17, 18, 19];

    fn given(count: u16, first: &[(u16, u8)]) -> [Address; MAX_KEPT] {
        let mut seen = SeenList { count, ..SeenList::default() };
        for (at, &(place, family)) in first.iter().enumerate() {
            (seen.offsets[at], seen.families[at]) = (place, family);
        }
        give(&BODY, seen, &Plain)
    }

    fn zeros(family: u8) -> Address {
        Address { family, ..Address::ZERO }
    }

    #[test]
    fn addresses_that_end_inside_are_given() {
        let list = given(3, &[(16, 4), (4, 6), (1, 4)]);
        assert_eq!((list[0].family, &list[0].octets[..5]), (4, &[16, 17, 18, 19, 0][..]));
        assert_eq!((list[1].family, &list[1].octets[..]), (6, &BODY[4..]));
        assert_eq!((list[2].family, &list[2].octets[..5]), (4, &[1, 2, 3, 4, 0][..]));
        assert_eq!(list[3..], [Address::ZERO; 13]);
    }

    #[test]
    fn past_the_end_at_place_0_and_of_other_families_only_the_family_is_given() {
        let list = given(6, &[(17, 4), (5, 6), (65535, 6), (8, 5), (65532, 4), (0, 4)]);
        assert_eq!(list[..6], [4, 6, 6, 5, 4, 4].map(zeros));
    }

    #[test]
    fn places_past_the_count_are_not_looked_at() {
        let both = [(8, 4), (8, 4)];
        assert_eq!(given(0, &both), [Address::ZERO; MAX_KEPT]);
        assert_eq!(given(1, &both)[1], Address::ZERO);
        assert_eq!(given(65535, &both), given(16, &both));
        assert_eq!(given(17, &both)[..2], given(2, &both)[..2]);
    }
}
