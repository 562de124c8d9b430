// Faults of a replay's rules. The verified replay is started only for traces for which this program prints something
// else with the fault than without.
use super::chain::unsplit;
use super::Row;
use crate::assess::{Assessed, Verdict};
use crate::cloning::Cloned;
use crate::kind::Kind;
use crate::rules::{Plain, ReplayRules};
use crate::show::hex;
use crate::trace::lines::Shown;
use crate::trace::making::Answer;
use crate::trace::pieces::Pieces;
use crate::trace::writing::LONGEST;
use crate::trace::Refusal;

pub const FAULTS: &[Row<dyn ReplayRules>] = &[
    (
        Kind::Traces,
        "window-ends",
        "The octets from one multiple of 16,456 to the next are taken for all that there are.",
        &WindowEnds,
    ),
    (
        Kind::Traces,
        "piece-ends",
        "The octets that have come, in pieces, are taken for all that there are.",
        &PieceEnds,
    ),
    (Kind::Traces, "policy-left-out", "The call that sets a policy isn't made.", &LeftOut(5)),
    (
        Kind::Traces,
        "response-left-out",
        "The call that decides a check response isn't made.",
        &LeftOut(6),
    ),
    (Kind::Traces, "clone-left-out", "The call that clones isn't made.", &LeftOut(7)),
    (
        Kind::Traces,
        "mark-left-out",
        "The call that marks a record as being deleted isn't made.",
        &LeftOut(8),
    ),
    (
        Kind::Traces,
        "replayed-for-a",
        "Every call is made for A, whichever operator its entry names.",
        &ReplayedForA,
    ),
    (Kind::Traces, "lent-127", "Requests are lent 127 octets of output.", &Lent127),
    (
        Kind::Traces,
        "refused-call-ends",
        "A call with another number than 0 ends the trace.",
        &RefusedCallEnds,
    ),
    (
        Kind::Traces,
        "accepted-applied",
        "A check response that is accepted is printed as an update that was applied.",
        &AcceptedApplied,
    ),
    (
        Kind::Traces,
        "cloned-applied",
        "A clone that is done is printed as an update that was applied.",
        &ClonedApplied,
    ),
    (Kind::Traces, "ordinals-from-1", "Ordinals count from 1.", &Ordinal(|ordinal| ordinal + 1)),
    (
        Kind::Traces,
        "ordinal-octet",
        "The low 8 bits of the ordinal are printed.",
        &Ordinal(|ordinal| ordinal % 256),
    ),
    (Kind::Traces, "replay-unsplit", "6 is printed in place of 61 to 65.", &ReplayUnsplit),
    (
        Kind::Traces,
        "update-replaced",
        "An update that was applied is called replaced.",
        &UpdateReplaced,
    ),
    (Kind::Traces, "list-applied", "A list that was replaced is called applied.", &ListApplied),
    (Kind::Traces, "outcomes-exchanged", "The two outcomes are exchanged.", &OutcomesExchanged),
    (
        Kind::Traces,
        "refusal-ordinal",
        "A refusal tells the entry's ordinal.",
        &Told(|_, ordinal| ordinal as usize),
    ),
    (
        Kind::Traces,
        "offset-16-bits",
        "A refusal tells the low 16 bits of the offset.",
        &Told(|offset, _| offset % 65_536),
    ),
    (Kind::Traces, "cut-ends", "A cut entry ends the trace as its end does.", &CutEnds),
    (
        Kind::Traces,
        "pairs-after-refusal",
        "The pairs are printed behind a refusal.",
        &PairsAfterRefusal,
    ),
    (Kind::Traces, "pairs-free-places", "Free places are printed too.", &PairsFreePlaces),
    (
        Kind::Traces,
        "pairs-ike-only",
        "Only the pairs of IKE records are printed.",
        &Sequence(|ike, _| ike),
    ),
    (
        Kind::Traces,
        "pairs-ipsec-first",
        "IPsec records come before IKE records.",
        &Sequence(|ike, ipsec| [ipsec, ike].concat()),
    ),
    (
        Kind::Traces,
        "pairs-by-spi",
        "The records of each table come by rising SPI.",
        &Sequence(|mut ike, mut ipsec| {
            ike.sort_by_key(|record| record.spi);
            ipsec.sort_by_key(|record| record.spi);
            [ike, ipsec].concat()
        }),
    ),
    (
        Kind::Traces,
        "pairs-turned",
        "Destination address and port are printed before those of the source.",
        &PairsTurned,
    ),
    (Kind::Traces, "pairs-spi-32-bits", "The low 32 bits of an SPI are printed.", &PairsSpi32Bits),
    (Kind::Traces, "pairs-4-octets", "IPv4 addresses are printed with four octets.", &Pairs4Octets),
    (
        Kind::Traces,
        "last-line-unended",
        "The last line has no line end.",
        &Joined(|lines| lines.join("\n")),
    ),
    (
        Kind::Traces,
        "empty-trace-line",
        "For an empty trace an empty line is printed.",
        &Joined(|lines| lines.join("\n") + "\n"),
    ),
];

struct WindowEnds;
impl ReplayRules for WindowEnds {
    fn window<'a>(&self, trace: &'a [u8], _pieces: &Pieces, offset: usize) -> &'a [u8] {
        let end = (offset / LONGEST + 1) * LONGEST;
        &trace[..end.min(trace.len())]
    }
}

struct ReplayedForA;
impl ReplayRules for ReplayedForA {
    fn operator(&self, _named: u64) -> u8 {
        0
    }
}

struct PieceEnds;
impl ReplayRules for PieceEnds {
    fn window<'a>(&self, trace: &'a [u8], pieces: &Pieces, offset: usize) -> &'a [u8] {
        &trace[..pieces.end(offset, trace)]
    }
}

struct LeftOut(u64);
impl ReplayRules for LeftOut {
    fn makes(&self, kind: u64) -> bool {
        kind != self.0
    }
}

struct Lent127;
impl ReplayRules for Lent127 {
    fn output_lent(&self) -> usize {
        Plain.output_lent() - 1
    }
}

struct RefusedCallEnds;
impl ReplayRules for RefusedCallEnds {
    fn goes_on(&self, number: u8) -> bool {
        number == 0
    }
}

struct AcceptedApplied;
impl ReplayRules for AcceptedApplied {
    fn answer_to_check(&self, assessed: &Assessed) -> Answer {
        let update = u8::from(assessed.outcome == Verdict::Accepted as u8);
        Answer { update, ..Plain.answer_to_check(assessed) }
    }
}

struct ClonedApplied;
impl ReplayRules for ClonedApplied {
    fn answer_to_clone(&self, cloned: &Cloned) -> Answer {
        let answer = Plain.answer_to_clone(cloned);
        Answer { update: u8::from(answer.number == 0), ..answer }
    }
}

struct Ordinal(fn(u64) -> u64);
impl ReplayRules for Ordinal {
    fn ordinal(&self, ordinal: u64) -> u64 {
        self.0(ordinal)
    }
}

struct ReplayUnsplit;
impl ReplayRules for ReplayUnsplit {
    fn number(&self, number: u8) -> u8 {
        unsplit(number)
    }
}

struct UpdateReplaced;
impl ReplayRules for UpdateReplaced {
    fn update(&self, answer: &Answer) -> &'static str {
        Plain.list(&Answer { list: answer.update, ..*answer })
    }
}

struct ListApplied;
impl ReplayRules for ListApplied {
    fn list(&self, answer: &Answer) -> &'static str {
        Plain.update(&Answer { update: answer.list, ..*answer })
    }
}

struct OutcomesExchanged;
impl ReplayRules for OutcomesExchanged {
    fn entry(&self, ordinal: u64, answer: &Answer) -> String {
        let Answer { number, update, list } = *answer;
        Plain.entry(ordinal, &Answer { number, update: list, list: update })
    }
}

/// A refusal tells something else than the entry's offset.
struct Told(fn(usize, u64) -> usize);
impl ReplayRules for Told {
    fn refusal(&self, refusal: Refusal, offset: usize, ordinal: u64) -> String {
        Plain.refusal(refusal, self.0(offset, ordinal), ordinal)
    }
}

struct CutEnds;
impl ReplayRules for CutEnds {
    fn after_refusal(
        &self,
        refusal: Refusal,
        line: String,
        pairs: &dyn Fn() -> Vec<String>,
    ) -> Vec<String> {
        if refusal == Refusal::Cut {
            pairs()
        } else {
            vec![line]
        }
    }
}

struct PairsAfterRefusal;
impl ReplayRules for PairsAfterRefusal {
    fn after_refusal(
        &self,
        _refusal: Refusal,
        line: String,
        pairs: &dyn Fn() -> Vec<String>,
    ) -> Vec<String> {
        [vec![line], pairs()].concat()
    }
}

struct PairsFreePlaces;
impl ReplayRules for PairsFreePlaces {
    fn is_shown(&self, _spi: u64) -> bool {
        true
    }
}

struct Sequence(fn(Vec<Shown>, Vec<Shown>) -> Vec<Shown>);
impl ReplayRules for Sequence {
    fn shown(&self, ike: Vec<Shown>, ipsec: Vec<Shown>) -> Vec<Shown> {
        self.0(ike, ipsec)
    }
}

struct PairsTurned;
impl ReplayRules for PairsTurned {
    fn pair(&self, shown: &Shown) -> String {
        Plain.pair(&Shown { pair: shown.pair.swapped(), ..*shown })
    }
}

struct PairsSpi32Bits;
impl ReplayRules for PairsSpi32Bits {
    fn pair(&self, shown: &Shown) -> String {
        Plain.pair(&Shown { spi: shown.spi % (1 << 32), ..*shown })
    }
}

struct Pairs4Octets;
impl ReplayRules for Pairs4Octets {
    fn pair(&self, shown: &Shown) -> String {
        let mut line = Plain.pair(shown);
        if shown.pair.family == 4 {
            let whole = [shown.pair.source, shown.pair.destination];
            whole.iter().for_each(|octets| line = line.replace(&hex(octets), &hex(&octets[..4])));
        }
        line
    }
}

struct Joined(fn(&[String]) -> String);
impl ReplayRules for Joined {
    fn joined(&self, lines: &[String]) -> String {
        self.0(lines)
    }
}
