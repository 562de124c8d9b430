// The rules of a replay: requests E3, E6, E8 and E9 of document 02, with docs/TRACE.md for the form of what is printed.
use crate::address::AddressPair;
use crate::assess::Assessed;
use crate::cloning::Cloned;
use crate::request::LEAST_OUTPUT;
use crate::show::hex;
use crate::trace::lines::Shown;
use crate::trace::making::Answer;
use crate::trace::pieces::Pieces;
use crate::trace::Refusal;

pub trait ReplayRules {
    /// "A program reads a trace from standard input", however it comes: what an entry at this offset is read of.
    fn window<'a>(&self, trace: &'a [u8], _pieces: &Pieces, _offset: usize) -> &'a [u8] {
        trace
    }

    /// "The end tables are .. those of the calls made one by one": the call of every kind is made.
    fn makes(&self, _kind: u64) -> bool {
        true
    }

    /// E9: "Each .. table call names operator A (0) or B (1)": the call is made for the one that its entry names.
    fn operator(&self, named: u64) -> u8 {
        named as u8
    }

    /// 2 is "output under 128 octets", so that so many are lent by decision.
    fn output_lent(&self) -> usize {
        LEAST_OUTPUT
    }

    /// "prints, per entry, its ordinal, the answer number": a call that is refused is no end.
    fn goes_on(&self, _number: u8) -> bool {
        true
    }

    /// "the answer number, the update and list outcomes": a check response has neither of the two, whatever its
    /// verdict, which isn't printed.
    fn answer_to_check(&self, assessed: &Assessed) -> Answer {
        Answer { number: assessed.number, ..Answer::default() }
    }

    /// The same of a clone request, which may be written of but updates nothing and has no list.
    fn answer_to_clone(&self, cloned: &Cloned) -> Answer {
        Answer { number: cloned.reply.number, ..Answer::default() }
    }

    /// "per entry, its ordinal", as in "`0 4 none none`".
    fn ordinal(&self, ordinal: u64) -> u64 {
        ordinal
    }

    /// "the answer number", E4: "Split 6 everywhere".
    fn number(&self, number: u8) -> u8 {
        number
    }

    /// 0 is "update none, applied, stale".
    fn update(&self, answer: &Answer) -> &'static str {
        ["none", "applied", "stale"][usize::from(answer.update)]
    }

    /// 0 is "list none, replaced, stale".
    fn list(&self, answer: &Answer) -> &'static str {
        ["none", "replaced", "stale"][usize::from(answer.list)]
    }

    /// "its ordinal, the answer number, the update and list outcomes".
    fn entry(&self, ordinal: u64, answer: &Answer) -> String {
        let (ordinal, number) = (self.ordinal(ordinal), self.number(answer.number));
        format!("{ordinal} {number} {} {}", self.update(answer), self.list(answer))
    }

    /// "with its entry's offset", as `20 at 43`.
    fn refusal(&self, refusal: Refusal, offset: usize, _ordinal: u64) -> String {
        format!("{} at {offset}", refusal as u8)
    }

    /// "the first as read is the last line, in the pairs' place".
    fn after_refusal(
        &self,
        _refusal: Refusal,
        line: String,
        _pairs: &dyn Fn() -> Vec<String>,
    ) -> Vec<String> {
        vec![line]
    }

    /// "at the end each record's pair"; "A place is free when its SPI is 0", and then no record.
    fn is_shown(&self, spi: u64) -> bool {
        spi != 0
    }

    /// No paper decides the order; IKE records by place and then IPsec records by place by decision.
    fn shown(&self, ike: Vec<Shown>, ipsec: Vec<Shown>) -> Vec<Shown> {
        [ike, ipsec].concat()
    }

    /// "family, source, destination, source port, destination port". All sixteen octets and small letters by decision.
    fn pair(&self, Shown { table, spi, pair }: &Shown) -> String {
        let AddressPair { family, source, destination, source_port, destination_port } = pair;
        let (source, destination) = (hex(source), hex(destination));
        format!("{table} {spi} {family} {source} {destination} {source_port} {destination_port}")
    }

    /// No paper decides it; each line has an end by decision.
    fn joined(&self, lines: &[String]) -> String {
        lines.iter().flat_map(|line| [line.as_str(), "\n"]).collect()
    }
}
