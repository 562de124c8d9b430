// How the octets of a trace come in: all at once, or in pieces one after the other.

#[derive(Debug, Clone, PartialEq, Eq)]
pub struct Pieces {
    /// Their lengths, over and over, none of them 0; empty where all octets come at once.
    lengths: Vec<usize>,
}

impl Pieces {
    pub fn at_once() -> Self {
        Pieces { lengths: Vec::new() }
    }

    /// Pieces of these lengths, over and over; the last may be shorter.
    pub fn of(lengths: &[usize]) -> Self {
        assert!(!lengths.contains(&0), "a piece has octets");
        Pieces { lengths: lengths.to_vec() }
    }

    /// The pieces of a trace, if it doesn't come at once.
    pub fn split<'a>(&self, mut trace: &'a [u8]) -> Option<Vec<&'a [u8]>> {
        if self.lengths.is_empty() {
            return None;
        }
        let mut pieces = Vec::new();
        let mut lengths = self.lengths.iter().cycle();
        while let (false, Some(&length)) = (trace.is_empty(), lengths.next()) {
            let (piece, rest) = trace.split_at(length.min(trace.len()));
            pieces.push(piece);
            trace = rest;
        }
        Some(pieces)
    }

    /// The end of the piece in which this offset of a trace lies.
    pub fn end(&self, offset: usize, trace: &[u8]) -> usize {
        let round: usize = self.lengths.iter().sum();
        if round == 0 {
            return trace.len();
        }
        let mut end = offset - offset % round;
        for length in &self.lengths {
            end += length;
            if end > offset {
                break;
            }
        }
        end.min(trace.len())
    }

    /// As it is shown.
    pub fn shown(&self) -> String {
        if self.lengths.is_empty() {
            return "all octets at once".to_string();
        }
        format!("in pieces of {:?} octets, over and over", self.lengths)
    }
}

#[cfg(test)]
mod tests {
    use super::*;

    #[test]
    fn a_trace_is_split_at_the_ends_of_its_pieces() {
        let trace: Vec<u8> = (0..100).collect();
        for lengths in [&[1][..], &[7], &[3, 1, 10], &[99], &[100], &[1000]] {
            let pieces = Pieces::of(lengths);
            let split = pieces.split(&trace).expect("pieces");
            assert_eq!(split.concat(), trace);
            let mut offset = 0;
            for piece in split {
                let end = offset + piece.len();
                assert!((offset..end).all(|within| pieces.end(within, &trace) == end));
                offset = end;
            }
        }
        assert_eq!(Pieces::at_once().split(&trace), None);
        assert_eq!(Pieces::at_once().end(3, &trace), 100);
        assert_eq!(Pieces::of(&[7]).split(&[]), Some(vec![]));
    }
}
