//! Chains recorded from a real client, strongSwan 5.9.8, that moves between networks: each request
//! through the handler, each response through the judge, and chains of other exchanges read whole.
//! The file says how it was recorded and what its lines hold.
mod common;
use common::{A, AGREED, CHECK, CHECK_ID, COOKIE2, VALUES};
use unmavreth::{assess, read, Effect, Gateway, Number, Opening, Outcome, Pair, Request, Rule};

const RECORDED: &str = include_str!("recorded/strongswan-5.9.8.txt");
const SPI: u64 = 7;

type Chain = (u8, Vec<u8>);

/// A request, what is said of it, and the response that was recorded.
struct Exchange {
    told: &'static str,
    id: u32,
    request: Chain,
    response: Chain,
}

#[derive(Default)]
struct Run {
    name: &'static str,
    exchanges: Vec<Exchange>,
    /// Requests of IKE_AUTH and CREATE_CHILD_SA.
    others: Vec<Chain>,
}

fn octets(hex: &str) -> Vec<u8> {
    let octet = |at| u8::from_str_radix(&hex[at..at + 2], 16).unwrap();
    if hex == "-" {
        vec![]
    } else {
        (0..hex.len()).step_by(2).map(octet).collect()
    }
}

fn chain(first: &str, hex: &str) -> Chain {
    (first.parse().unwrap(), octets(hex))
}

fn runs() -> Vec<Run> {
    let mut runs: Vec<Run> = Vec::new();
    let mut told = "";
    for line in RECORDED.lines() {
        let words: Vec<&str> = line.split(' ').collect();
        match words[..] {
            ["#", "----", "run", name] => runs.push(Run { name, ..Run::default() }),
            ["#", _, "->", ..] => told = &line[2..],
            ["#X", _, _, first, hex, _] => {
                runs.last_mut().unwrap().others.push(chain(first, hex));
            }
            ["Q", id, first, hex, _] => {
                let (id, request) = (id.parse().unwrap(), chain(first, hex));
                let exchange = Exchange { told, id, request, response: (0, vec![]) };
                runs.last_mut().unwrap().exchanges.push(exchange);
            }
            ["R", _, first, hex, _] => {
                let exchanges = &mut runs.last_mut().unwrap().exchanges;
                exchanges.last_mut().unwrap().response = chain(first, hex);
            }
            _ => assert!(runs.is_empty(), "a line that is not known: {line}"),
        }
    }
    runs
}

impl Exchange {
    /// The packet's pair: `203.0.113.7:4500 -> 192.0.2.1:4500: ..`.
    fn pair(&self) -> Pair {
        let end = |text: &str| {
            let (address, port) = text.split_once(':').unwrap();
            let octet: Vec<u8> = address.split('.').map(|it| it.parse().unwrap()).collect();
            ([octet[0], octet[1], octet[2], octet[3]], port.parse().unwrap())
        };
        let (source, rest) = self.told.split_once(" -> ").unwrap();
        let (destination, _) = rest.split_once(": ").unwrap();
        Pair::ipv4(end(source), end(destination))
    }

    fn says(&self, words: &str) -> bool {
        self.told.contains(words)
    }

    /// The number, and what became of update and list.
    fn outcome(&self) -> (Number, Effect, Effect) {
        let done = self.says(": DONE, ");
        assert!(done || self.says(": NOT_ACCEPTABLE, "));
        let effect = |words| if self.says(words) { Effect::Applied } else { Effect::None };
        let number = if done { Number::Done } else { Number::NotAcceptable };
        (number, effect("update 1"), effect("list 1"))
    }

    /// The gateway's NAT detection values, by the response; those of the tests where it has none.
    fn values(&self) -> [[u8; 20]; 2] {
        let value = |at: usize| self.response.1.get(at..at + 20).and_then(|it| it.try_into().ok());
        [value(8).unwrap_or(VALUES[0]), value(36).unwrap_or(VALUES[1])]
    }

    /// The response that must be given to a request with this cookie: the one recorded, but for a
    /// cookie that was spoilt behind the handler, and for keepalives that got nothing before E2.
    fn expected(&self, run: &str, cookie: &[u8]) -> Chain {
        let (first, mut octets) = self.response.clone();
        if self.says("COOKIE2 spoilt") {
            let at = octets.len() - cookie.len();
            octets.splice(at.., cookie.iter().copied());
        }
        let detects = read(self.request.0, &self.request.1).seen().nat_source != 0;
        if run == "s3" && detects && octets.is_empty() {
            let [source, destination] = VALUES;
            let notify = common::notify;
            return common::chain(&[
                notify(common::NAT_SOURCE, &source),
                notify(common::NAT_DESTINATION, &destination),
            ]);
        }
        (first, octets)
    }

    /// What the client's end makes of the response as it was sent.
    fn judged(&self) -> Outcome {
        match self.outcome().0 {
            _ if self.says("COOKIE2 spoilt") => Outcome::Close,
            Number::Done => Outcome::Accepted,
            _ => Outcome::Unacceptable,
        }
    }
}

/// Opened as the client's IKE_AUTH has it, with MOBIKE, from where its first request comes.
fn opened(run: &Run) -> Gateway {
    let mut gateway = Gateway::new();
    let pair = run.exchanges[0].pair();
    let opening = Opening { spi: SPI, agreed: AGREED, pair, child: 70 };
    assert_eq!(gateway.open(&opening), Number::Done);
    let source = if run.name == "s2" { ([203, 0, 113, 0], 24) } else { ([0; 4], 0) };
    assert_eq!(gateway.set_policy(&[Rule::ipv4(source, ([0; 4], 0))], A), Number::Done);
    gateway
}

fn replay(run: &Run, gateway: &mut Gateway, exchange: &Exchange) {
    let (first, ref body) = exchange.request;
    let [nat_source, nat_destination] = &exchange.values();
    let pair = exchange.pair();
    let request = Request {
        spi: SPI,
        id: exchange.id,
        pair,
        nat_source,
        nat_destination,
        first,
        body,
        cookie: &CHECK,
        check_id: CHECK_ID,
        operator: A,
    };
    let before = gateway.ike[0].pair;
    let mut out = [0; 128];
    let reply = gateway.handle(&request, &mut out);
    let outcome = (reply.number(), reply.update(), reply.list());
    let at = (run.name, exchange.id);
    assert_eq!(outcome, exchange.outcome(), "{at:?}");
    let cookie = reply.cookie(body);
    let response = (reply.first(), reply.response(&out).to_vec());
    assert_eq!(response, exchange.expected(run.name, cookie), "{at:?}");
    let moved = if reply.update() == Effect::Applied { pair } else { before };
    assert_eq!((gateway.ike[0].pair, gateway.ipsec[0].pair), (moved, before), "{at:?}");
    if reply.update() == Effect::Applied {
        let copied = common::chain(&[common::notify(COOKIE2, &CHECK)]);
        let checked = gateway.check(&common::response(&copied));
        assert_eq!(
            (checked.outcome(), gateway.ipsec[0].pair),
            (Outcome::Accepted, moved),
            "{at:?}"
        );
    }
    let judged = assess(cookie, exchange.response.0, &exchange.response.1);
    assert_eq!((judged.number(), judged.outcome()), (Number::Done, exchange.judged()), "{at:?}");
}

#[test]
fn each_request_is_answered_as_recorded() {
    let mut exchanges = 0;
    for run in runs() {
        let mut gateway = opened(&run);
        for exchange in &run.exchanges {
            replay(&run, &mut gateway, exchange);
            exchanges += 1;
        }
    }
    assert_eq!(exchanges, 51);
}

#[test]
fn chains_of_other_exchanges_are_read_whole() {
    let others: Vec<Chain> = runs().into_iter().flat_map(|run| run.others).collect();
    assert_eq!(others.len(), 17);
    for (first, body) in others {
        let reading = read(first, &body);
        assert_eq!(reading.number(), Number::Done);
        assert!(reading.seen().tally.payloads > 4);
    }
}
