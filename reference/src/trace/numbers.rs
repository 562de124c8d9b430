// Numbers as they stand in a trace: groups of seven bits, the lowest first, the top bit set on all
// but the last.
use super::Refusal;
use crate::rules::TraceRules;

pub const GROUP_BITS: u32 = 7;
pub const MORE_FOLLOW: u8 = 0x80;

/// The group of a number at this place, from the lowest.
pub fn group(value: u64, place: u32) -> u8 {
    (value >> (GROUP_BITS * place)) as u8 & !MORE_FOLLOW
}

/// The number at the start of these octets, and how many of them it takes.
pub fn read(octets: &[u8], rules: &(impl TraceRules + ?Sized)) -> Result<(u64, usize), Refusal> {
    let most = octets.len().min(rules.most_groups());
    let last = octets[..most].iter().position(|octet| octet & MORE_FOLLOW == 0);
    let count = last.ok_or(Refusal::Cut)? + 1;
    let groups: Vec<u8> = octets[..count].iter().map(|octet| octet & !MORE_FOLLOW).collect();
    if !rules.is_shortest(&groups) {
        return Err(Refusal::Cut);
    }
    Ok((rules.in_64_bits(rules.joined(&groups))?, count))
}

#[cfg(test)]
mod tests {
    use super::*;
    use crate::rng::Rng;
    use crate::rules::Plain;

    fn reads(octets: &[u8]) -> Result<(u64, usize), Refusal> {
        read(octets, &Plain)
    }

    #[test]
    fn three_hundred_is_ac_02() {
        assert_eq!(Plain.number(300), [0xac, 0x02]);
        assert_eq!(reads(&[0xac, 0x02]), Ok((300, 2)));
        assert_eq!(reads(&[0xac, 0x02, 0x80]), Ok((300, 2)));
    }

    #[test]
    fn only_the_shortest_form_is_read() {
        let forms: [&[u8]; 5] =
            [&[0x80, 0], &[0x87, 0], &[0xac, 0x82, 0], &[0x80, 0x80, 0], &[0xff, 0x80, 0, 1]];
        for form in forms {
            assert_eq!(reads(form), Err(Refusal::Cut), "{form:?}");
        }
        assert_eq!(reads(&[0]), Ok((0, 1)));
        assert_eq!(reads(&[0, 0]), Ok((0, 1)));
    }

    #[test]
    fn a_number_that_does_not_end_is_cut() {
        for count in 0..20 {
            assert_eq!(reads(&vec![0xff; count]), Err(Refusal::Cut));
            assert_eq!(reads(&vec![0x80; count]), Err(Refusal::Cut));
        }
    }

    #[test]
    fn the_tenth_octet_is_01_or_the_number_is_refused() {
        for tenth in 0..=255 {
            for others in [0x80, 0xff] {
                let octets = [&[others; 9][..], &[tenth, 1, 1]].concat();
                let value = if others == 0xff { u64::MAX } else { 1 << 63 };
                let expected = if tenth == 1 { Ok((value, 10)) } else { Err(Refusal::Cut) };
                assert_eq!(reads(&octets), expected, "{octets:?}");
            }
        }
        let eleven = [&[0xff; 9][..], &[0x81, 0]].concat();
        assert_eq!(reads(&eleven), Err(Refusal::Cut));
        assert_eq!(reads(&[&[0x80; 10][..], &[1]].concat()), Err(Refusal::Cut));
    }

    #[test]
    fn numbers_about_powers_of_two_read_back() {
        for bit in 0..64 {
            for value in [(1_u64 << bit) - 1, 1 << bit, (1 << bit) + 1] {
                let mut octets = Plain.number(value);
                assert_eq!(octets.len(), ((value.max(1).ilog2() / 7) + 1) as usize);
                octets.push(0x55);
                assert_eq!(reads(&octets), Ok((value, octets.len() - 1)));
            }
        }
        assert_eq!(Plain.number(u64::MAX).len(), 10);
    }

    #[test]
    fn what_is_read_is_written_as_the_same_octets() {
        let mut rng = Rng::from_words(&[1]);
        let mut times_read = 0;
        for _ in 0..20_000 {
            let mut octets = rng.octets(12);
            let length = rng.between(1, 12);
            octets[..length - 1].iter_mut().for_each(|octet| *octet |= MORE_FOLLOW);
            octets[length - 1] &= !MORE_FOLLOW >> rng.below(7);
            if let Ok((value, count)) = reads(&octets) {
                times_read += 1;
                assert_eq!(Plain.number(value), octets[..count]);
            }
        }
        assert!(times_read > 10_000, "{times_read}");
    }
}
