// What a hostile host may say was seen of the additional addresses: any count over what a reading
// told, and anything in the places past it.
use crate::given_list::SeenList;
use crate::summary::MAX_KEPT;

/// The place and the family that are put into a place of the list, by the size of the body.
type Filling = fn(u16, u16) -> (u16, u8);

const FILLINGS: [Filling; 3] = [inside, about_the_end, greatest];

/// The families that have octets, and how many.
const FAMILIES: [(u8, u16); 2] = [(4, 4), (6, 16)];
const OTHER_FAMILIES: [u8; 8] = [5, 255, 0, 1, 3, 7, 16, 64];

/// Every filling of the places past the count, with every count.
pub fn hostile(body: &[u8], told: SeenList) -> Vec<SeenList> {
    let size = u16::try_from(body.len()).unwrap_or(u16::MAX);
    let mut lists = Vec::new();
    for filling in FILLINGS {
        let filled = filled(told, size, filling);
        for count in counts(told.count) {
            lists.push(SeenList { count, ..filled });
        }
    }
    lists
}

/// That told, and those about the list's ends and the greatest number.
fn counts(told: u16) -> [u16; 7] {
    [told, 0, 1, told.wrapping_sub(1), 16, 17, u16::MAX]
}

fn filled(mut seen: SeenList, size: u16, filling: Filling) -> SeenList {
    for at in usize::from(seen.count)..MAX_KEPT {
        (seen.offsets[at], seen.families[at]) = filling(size, at as u16);
    }
    seen
}

/// Both families in turn, from the body's first octet on.
fn inside(size: u16, at: u16) -> (u16, u8) {
    let (family, _) = FAMILIES[usize::from(at % 2)];
    (size / MAX_KEPT as u16 * at, family)
}

/// Both families in turn, ending one octet before the end of the body, with it and past it.
fn about_the_end(size: u16, at: u16) -> (u16, u8) {
    let (family, octets) = FAMILIES[usize::from(at % 2)];
    (size.wrapping_sub(octets + 1).wrapping_add(at / 2), family)
}

/// Other families inside the body, and in turn with them both families at the greatest places.
fn greatest(size: u16, at: u16) -> (u16, u8) {
    let turn = at / 2;
    match at % 2 {
        0 => (size / 2, OTHER_FAMILIES[usize::from(turn)]),
        _ => {
            let (family, octets) = FAMILIES[usize::from(turn % 2)];
            (u16::MAX - turn / 2 * (octets / 2), family)
        }
    }
}

#[cfg(test)]
mod tests {
    use super::*;

    fn told(count: u16) -> SeenList {
        let mut seen = SeenList { count, ..SeenList::default() };
        let kept = usize::from(count).min(MAX_KEPT);
        seen.offsets[..kept].fill(8);
        seen.families[..kept].fill(4);
        seen
    }

    #[test]
    fn only_places_past_the_count_are_filled() {
        for count in [0, 1, 15, 16, 17] {
            let kept = usize::from(count).min(MAX_KEPT);
            for seen in hostile(&[0; 100], told(count)) {
                assert_eq!(seen.offsets[..kept], told(count).offsets[..kept]);
                assert_eq!(seen.families[..kept], told(count).families[..kept]);
                assert!(!seen.offsets[kept..].contains(&8));
            }
        }
    }

    #[test]
    fn addresses_end_before_the_end_with_it_and_past_it() {
        let end = |(place, family): (u16, u8)| place + if family == 4 { 4 } else { 16 };
        let ends: Vec<u16> = (0..6).map(|at| end(about_the_end(100, at))).collect();
        assert_eq!(ends, [99, 99, 100, 100, 101, 101]);
    }
}
