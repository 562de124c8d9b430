// Whose record a request finds, and by whose policy an update is judged.
use super::super::super::operators::MORE_OCTETS;
use super::super::super::tables::spis;
use super::setting::{self, each_effect, moving};
use super::Case;
use crate::policy::Policy;
use crate::request::Request;
use crate::tables::{Tables, IKE_PLACES};

pub fn all() -> Vec<Case> {
    [octets(), effects(), policies(), twins(), places()].concat()
}

fn tables(operator: u8) -> Tables {
    setting::tables_with(|record| record.agreed.operator = operator)
}

/// Each octet that a request may give, and that its record may have.
fn octets() -> Vec<Case> {
    let mut cases = Vec::new();
    let mut add = |its: u8, operator: u8| {
        cases.push(Case { tables: tables(its), request: Request { operator, ..moving() } });
    };
    for octet in 0..=255 {
        add(0, octet);
    }
    for octet in MORE_OCTETS {
        add(1, octet);
        add(octet, octet);
        add(octet, 0);
    }
    cases
}

/// Some of these with every effect, and with lists of other lengths.
fn effects() -> Vec<Case> {
    let mut cases = Vec::new();
    for its in [0, 1, 2] {
        for operator in [0, 1, 2] {
            for length in [128, 127] {
                let tables = tables(its).with_ipsec_length(length);
                for request in each_effect() {
                    let request = Request { operator, ..request };
                    cases.push(Case { tables: tables.clone(), request });
                }
            }
        }
    }
    cases
}

/// Each policy open, closed, or of one family, with every effect of a request of each operator.
fn policies() -> Vec<Case> {
    let open = setting::tables().policies[0];
    let mut ipv4 = open;
    (ipv4.count, ipv4.rules[1]) = (1, Policy::EMPTY.rules[0]);
    let mut cases = Vec::new();
    for of_a in [open, Policy::EMPTY, ipv4] {
        for of_b in [open, Policy::EMPTY, ipv4] {
            for operator in [0, 1] {
                let tables = Tables { policies: [of_a, of_b], ..tables(operator) };
                let from_ipv4 = Request { pair: setting::packet(4), ..moving() };
                for request in each_effect().into_iter().chain([from_ipv4]) {
                    let request = Request { operator, ..request };
                    cases.push(Case { tables: tables.clone(), request });
                }
            }
        }
    }
    cases
}

/// Two records of the SPI, each of either operator or of neither: the lower is meant, whoever asks.
fn twins() -> Vec<Case> {
    let mut cases = Vec::new();
    for twin in [0, 2, 31] {
        for own in [0, 1, 2] {
            for its in [0, 1, 2] {
                let mut tables = tables(own);
                let record = &mut tables.ike_mut()[twin];
                (record.spi, record.agreed.operator) = (setting::spi(), its);
                (record.agreed.mobike, record.update_mark) = (1, 0);
                for operator in [0, 1, 2] {
                    let request = Request { operator, ..moving() };
                    cases.push(Case { tables: tables.clone(), request });
                }
            }
        }
    }
    cases
}

/// Each place's record, asked for by each operator; also where its place is free.
fn places() -> Vec<Case> {
    let mut cases = Vec::new();
    for place in 0..IKE_PLACES {
        for operator in [0, 1] {
            let mut tables = setting::tables();
            (tables.ike_mut()[place].update_mark, tables.ike_mut()[place].list_mark) = (0, 0);
            let request = Request { spi: spis::ike(place), operator, ..moving() };
            cases.push(Case { tables: tables.clone(), request: request.clone() });
            tables.ike_mut()[place].spi = 0;
            cases.push(Case { tables, request });
        }
    }
    cases
}
