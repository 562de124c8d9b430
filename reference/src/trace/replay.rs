// The replay of a trace: each entry is read and its call made, from empty tables and policy, up to the
// end or to the first entry that can't be read.
use super::lines::pairs;
use super::making::Answer;
use super::pieces::Pieces;
use super::reading;
use crate::rules::{ReplayRules, Rules};
use crate::tables::Tables;

/// All that is printed for a trace whose octets come at once.
pub fn replay(trace: &[u8], rules: &impl Rules) -> Vec<u8> {
    replay_in_pieces(trace, &Pieces::at_once(), rules)
}

/// All that is printed for a trace, which is the same however its octets come.
pub fn replay_in_pieces(trace: &[u8], pieces: &Pieces, rules: &impl Rules) -> Vec<u8> {
    let of_replay = rules.replay();
    let mut tables = Tables::empty();
    let mut lines = Vec::new();
    let (mut ordinal, mut offset, mut goes_on) = (0, 0, true);
    while goes_on && offset < trace.len() {
        match reading::read(of_replay.window(trace, pieces, offset), offset, rules.trace()) {
            Ok(read) => {
                let mut answer = Answer::default();
                if of_replay.makes(read.entry.kind()) {
                    answer = read.entry.make(&mut tables, rules);
                }
                lines.push(of_replay.entry(ordinal, &answer));
                (ordinal, offset) = (ordinal + 1, read.next);
                goes_on = of_replay.goes_on(answer.number);
            }
            Err(refusal) => {
                let line = of_replay.refusal(refusal, offset, ordinal);
                let pairs = || pairs(&tables, of_replay);
                lines.extend(of_replay.after_refusal(refusal, line, &pairs));
                return of_replay.joined(&lines).into_bytes();
            }
        }
    }
    lines.extend(pairs(&tables, of_replay));
    of_replay.joined(&lines).into_bytes()
}

#[cfg(test)]
mod tests {
    use super::*;
    use crate::cases::traces::examples::{self, Example};
    use crate::rules::Plain;

    fn printed(trace: &[u8]) -> String {
        String::from_utf8(replay(trace, &Plain)).expect("only plain characters")
    }

    #[test]
    fn the_examples_print_what_they_should() {
        for Example { trace, printed: expected } in examples::all() {
            assert_eq!(printed(&trace), expected, "{trace:02x?}");
        }
    }

    /// The offsets at which the entries of this trace begin, and its end.
    fn starts(trace: &[u8]) -> Vec<usize> {
        let mut starts = vec![0];
        let mut offset = 0;
        while offset < trace.len() {
            offset = reading::read(trace, offset, &Plain).expect("a whole trace").next;
            starts.push(offset);
        }
        starts
    }

    #[test]
    fn a_trace_cut_at_any_octet_is_refused_at_its_last_entry() {
        let trace = examples::all_kinds();
        let whole = printed(&trace);
        let starts = starts(&trace);
        assert_eq!(starts[..5], [0, 44, 82, 87, 92]);
        for length in 0..=trace.len() {
            let before = starts.iter().filter(|&&start| start <= length).count() - 1;
            let lines: Vec<&str> = whole.lines().take(before).collect();
            let cut = printed(&trace[..length]);
            let cut: Vec<&str> = cut.lines().collect();
            assert_eq!(cut[..before], lines, "{length}");
            if starts[before] == length {
                assert!(cut[before..]
                    .iter()
                    .all(|line| line.starts_with("ip") || line.starts_with("ike")));
            } else {
                assert_eq!(cut[before..], [format!("20 at {}", starts[before])]);
            }
        }
    }

    #[test]
    fn every_kind_is_made_on_what_the_one_before_left() {
        let expected = "0 0 none none
1 0 none none
2 0 none none
3 0 none none
4 0 applied none
5 0 none none
6 0 applied replaced
7 0 none none
8 0 none none
9 0 none none
10 0 none none
11 0 none none
12 0 none none
ike 7 4 c0000201000000000000000000000000 c6336401000000000000000000000000 4500 4500
ike 8 4 cb007107000000000000000000000000 c6336401000000000000000000000000 1024 4500
ipsec 9 4 c0000201000000000000000000000000 c6336401000000000000000000000000 4500 4500
";
        assert_eq!(printed(&examples::all_kinds()), expected);
    }

    #[test]
    fn pairs_come_by_place_and_with_all_their_octets() {
        let open = |spi: u8, family: u8, child: u8| {
            let pair = [vec![family], vec![0xab; 4], vec![0; 28], vec![1, 2]].concat();
            [vec![0, spi, 1], pair, vec![child, 0, 0, 1]].concat()
        };
        let trace = [open(9, 4, 8), open(3, 6, 5), vec![2, 9, 1], open(7, 4, 6)].concat();
        let (ab, zeros) = ("ab".repeat(4), "0".repeat(24));
        let pair = |family| format!("{family} {ab}{zeros} {} 1 2", "0".repeat(32));
        let expected = format!(
            "0 0 none none\n1 0 none none\n2 0 none none\n3 0 none none\n\
             ike 7 {four}\nike 3 {six}\nipsec 6 {four}\nipsec 5 {six}\n",
            four = pair(4),
            six = pair(6)
        );
        assert_eq!(printed(&trace), expected);
    }
}
