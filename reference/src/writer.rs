// The request writer at the initiator's end: the notifications asked for, in their order.
use crate::asking::Arguments;
use crate::reply::written_and_rest;
use crate::rules::WriterRules;
use crate::show;

/// What the writer gives back, with the whole output after the call.
#[derive(Debug, Clone, Default, PartialEq, Eq)]
pub struct Written {
    pub number: u8,
    pub first: u8,
    pub length: usize,
    pub output: Vec<u8>,
}

impl Written {
    /// The request's body.
    pub fn octets(&self) -> &[u8] {
        written_and_rest(&self.output, self.length).0
    }

    /// Every field by name, to be shown.
    pub fn fields(&self) -> Vec<(String, String)> {
        let (written, rest) = written_and_rest(&self.output, self.length);
        let fields = [
            ("number", self.number.to_string()),
            ("first type", self.first.to_string()),
            ("length", self.length.to_string()),
            ("written", show::hex(written)),
            ("rest of the output", show::hex(rest)),
        ];
        fields.map(|(name, value)| (name.to_string(), value)).to_vec()
    }
}

pub fn write(arguments: &Arguments, rules: &(impl WriterRules + ?Sized)) -> Written {
    let before = &arguments.output;
    if let Err(refusal) = arguments.check(rules) {
        let output = rules.output_refused(before);
        return Written { number: refusal as u8, output, ..Written::default() };
    }
    let chain = chain(arguments, rules);
    let (first, length) = (rules.first_type(&chain), rules.length(&chain));
    Written { number: 0, first, length, output: rules.output(before, &chain) }
}

/// What is written if nothing is refused.
pub fn chain(arguments: &Arguments, rules: &(impl WriterRules + ?Sized)) -> Vec<u8> {
    let notifications = rules.notifications(arguments);
    let mut octets = Vec::new();
    for (place, (notify_type, data)) in notifications.iter().enumerate() {
        let is_last = place + 1 == notifications.len();
        octets.extend(rules.header(is_last, *notify_type, data.len()));
        octets.extend_from_slice(data);
    }
    octets
}

#[cfg(test)]
mod tests {
    use super::*;
    use crate::address::{Address, AddressPair};
    use crate::asking::{Ask, LEAST_OUTPUT};
    use crate::rules::Plain;

    const IPV4: Address =
        Address { family: 4, octets: [10, 0, 0, 1, 0, 0, 0, 0, 0, 0, 0, 0, 0, 0, 0, 0] };
    const IPV6: Address = Address { family: 6, octets: [7; 16] };
    const PAIR: AddressPair = AddressPair {
        family: 4,
        source: IPV4.octets,
        destination: [10, 0, 0, 2, 0, 0, 0, 0, 0, 0, 0, 0, 0, 0, 0, 0],
        source_port: 500,
        destination_port: 4500,
    };

    /// This is asked for, of values that are all sound and different.
    fn asking(ask: Ask) -> Arguments {
        Arguments {
            ask,
            pair: PAIR,
            addresses: [IPV6; 16],
            nat_source: vec![1; 20],
            nat_destination: vec![2; 20],
            cookie: vec![],
            output: vec![0xee; LEAST_OUTPUT],
        }
    }

    fn everything() -> Arguments {
        let ask = Ask {
            update: true,
            no_nats: true,
            nat_source: true,
            nat_destination: true,
            no_additional: false,
            count: 16,
            ..Ask::default()
        };
        Arguments { pair: AddressPair { family: 6, ..PAIR }, cookie: vec![3; 64], ..asking(ask) }
    }

    fn written(arguments: &Arguments) -> (u8, u8, Vec<u8>) {
        let written = write(arguments, &Plain);
        assert!(written.output[written.length..].iter().all(|&octet| octet == 0xee));
        (written.number, written.first, written.octets().to_vec())
    }

    fn number(change: impl Fn(&mut Arguments)) -> u8 {
        let mut arguments = everything();
        change(&mut arguments);
        let (number, first, octets) = written(&arguments);
        assert!(number == 0 || (first, octets) == (0, vec![]));
        number
    }

    #[test]
    fn row_c_with_a_cookie() {
        let mut arguments = asking(Ask { update: true, ..Ask::default() });
        arguments.cookie = (1..=8).collect();
        let body = [
            0x29, 0, 0, 8, 0, 0, 0x40, 0x10, 0, 0, 0, 16, 0, 0, 0x40, 0x11, 1, 2, 3, 4, 5, 6, 7, 8,
        ];
        assert_eq!(written(&arguments), (0, 41, body.to_vec()));
    }

    #[test]
    fn nothing_asked_for_is_nothing_written() {
        assert_eq!(written(&asking(Ask::default())), (0, 0, vec![]));
    }

    #[test]
    fn all_have_their_order_and_their_data() {
        let ask = Ask { count: 2, ..everything().ask };
        let mut arguments = Arguments { cookie: vec![3; 8], ..asking(ask) };
        arguments.addresses[1] = IPV4;
        let notify = |notify_type: u8, data: &[u8]| {
            [&[41, 0, 0, 8 + data.len() as u8, 0, 0, 0x40, notify_type], data].concat()
        };
        let path = [10, 0, 0, 1, 10, 0, 0, 2, 1, 0xf4, 0x11, 0x94];
        let mut last = notify(0x11, &[3; 8]);
        last[0] = 0;
        let body = [
            notify(0x10, &[]),
            notify(0x12, &path),
            notify(4, &[1; 20]),
            notify(5, &[2; 20]),
            notify(0x0e, &[7; 16]),
            notify(0x0d, &[10, 0, 0, 1]),
            last,
        ];
        assert_eq!(written(&arguments), (0, 41, body.concat()));
    }

    #[test]
    fn the_longest_request_fills_the_least_output() {
        let (number, first, octets) = written(&everything());
        assert_eq!((number, first, octets.len()), (0, 41, LEAST_OUTPUT));
    }

    #[test]
    fn each_part_of_check_1() {
        assert_eq!(number(|it| it.pair.family = 5), 1);
        assert_eq!(number(|it| it.pair.family = 4), 0);
        assert_eq!(number(|it| (it.pair.family, it.pair.source[15]) = (4, 1)), 1);
        assert_eq!(number(|it| (it.pair.family, it.pair.destination[4]) = (4, 1)), 1);
        assert_eq!(number(|it| it.ask.nat_source = false), 1);
        assert_eq!(number(|it| it.ask.nat_destination = false), 1);
        assert_eq!(number(|it| it.nat_source.truncate(19)), 1);
        assert_eq!(number(|it| it.nat_destination.push(0)), 1);
        assert_eq!(number(|it| it.ask.count = 17), 1);
        assert_eq!(number(|it| it.ask.no_additional = true), 1);
        assert_eq!(number(|it| (it.ask.no_additional, it.ask.count) = (true, 0)), 0);
        assert_eq!(number(|it| it.addresses[15].family = 4), 1);
        assert_eq!(number(|it| it.addresses[0].family = 0), 1);
        assert_eq!(number(|it| it.cookie.truncate(7)), 1);
        assert_eq!(number(|it| it.cookie.push(0)), 1);
    }

    #[test]
    fn what_is_not_asked_for_is_not_looked_at() {
        let unasked = |it: &mut Arguments| {
            it.ask = Ask { count: 15, ..Ask::default() };
            it.pair.family = 9;
            it.addresses[15].family = 9;
            it.nat_source.clear();
            it.nat_destination.push(0);
        };
        assert_eq!(number(unasked), 0);
    }

    const SUPPORTED: Ask = Ask { clone_supported: true, ..NOTHING };
    const CLONE: Ask = Ask { clone: true, ..NOTHING };
    const NOTHING: Ask = Ask {
        update: false,
        no_nats: false,
        nat_source: false,
        nat_destination: false,
        no_additional: false,
        count: 0,
        clone_supported: false,
        clone: false,
    };

    #[test]
    fn each_of_the_two_of_clones_is_written_alone() {
        for (ask, low) in [(SUPPORTED, 0x30), (CLONE, 0x31)] {
            let mut arguments = asking(ask);
            let octets = vec![0, 0, 0, 8, 0, 0, 0x40, low];
            assert_eq!(written(&arguments), (0, 41, octets.clone()));
            arguments.pair.family = 5;
            arguments.addresses[0].family = 9;
            (arguments.nat_source, arguments.nat_destination) = (vec![], vec![1; 21]);
            assert_eq!(written(&arguments), (0, 41, octets));
            arguments.output.truncate(563);
            assert_eq!(written(&arguments), (2, 0, vec![]));
            let beside: [fn(&mut Arguments); 9] = [
                |it| (it.ask.clone, it.ask.clone_supported) = (true, true),
                |it| it.ask.update = true,
                |it| it.ask.no_nats = true,
                |it| it.ask.nat_source = true,
                |it| it.ask.nat_destination = true,
                |it| it.ask.no_additional = true,
                |it| it.ask.count = 1,
                |it| it.cookie = vec![1; 8],
                |it| (it.ask.nat_source, it.ask.nat_destination) = (true, true),
            ];
            for change in beside {
                let mut arguments = asking(ask);
                change(&mut arguments);
                assert_eq!(written(&arguments), (1, 0, vec![]));
            }
        }
    }

    #[test]
    fn check_2_comes_after_check_1_whatever_is_asked_for() {
        assert_eq!(number(|it| it.output.truncate(563)), 2);
        assert_eq!(number(|it| (it.output, it.cookie) = (vec![], vec![1])), 1);
        let nothing = Arguments { output: vec![0xee; 563], ..asking(Ask::default()) };
        assert_eq!(written(&nothing), (2, 0, vec![]));
    }
}
