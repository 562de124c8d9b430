// The response to a return routability check of ours: what it is given, its checks, and what it does to the tables.
use crate::assess::{assess, Assessed, Verdict};
use crate::calls::{refuse_if, Refusal, User};
use crate::closing;
use crate::rules::{ChainRules, CheckRules, Rules, TableRules};
use crate::tables::{Record, Tables};

#[derive(Debug, Clone, PartialEq, Eq)]
pub struct CheckResponse {
    pub spi: u64,
    /// Of our request.
    pub id: u32,
    pub first: u8,
    pub body: Vec<u8>,
    pub operator: u8,
}

#[derive(Debug, Clone, Copy, PartialEq, Eq)]
pub enum Check {
    /// 1, of the SPI.
    Spi,
    /// 1, of the IPsec list.
    List,
    /// 1, of the operator.
    Operator,
    /// 3.
    Body,
    /// 4.
    Record,
    /// 5.
    Agreed,
    /// 14.
    Pending,
    /// 61 to 65 and 7.
    Chain,
}

/// What a response that was read does, beside ending the check.
#[derive(Debug, Clone, Copy, PartialEq, Eq)]
pub enum Step {
    Move,
    Close,
    Nothing,
}

/// Decides a response by the check that is pending in the record of its SPI.
pub fn decide<'a>(
    response: &'a CheckResponse,
    tables: &mut Tables,
    rules: &impl Rules,
) -> Assessed<'a> {
    let named = rules.tables().named(response.operator);
    let place = rules.tables().meant_of(&tables.ike.records, response.spi, named);
    let order = rules.checks().order().iter();
    let failed = order.copied().find_map(|check| {
        response.refusal(check, place, tables, rules).map(|refused| (check, refused))
    });
    match (failed, place) {
        (Some((check, refused)), Some(place)) => {
            let record = &mut tables.ike_mut()[place];
            record.check = rules.checks().after_refused(record.check, check);
            refused
        }
        (Some((_, refused)), None) => refused,
        (None, place) => response.read(place.expect("check 4 passed"), tables, rules),
    }
}

impl CheckResponse {
    /// What is given back if this check fails.
    fn refusal(
        &self,
        check: Check,
        place: Option<usize>,
        tables: &Tables,
        rules: &impl Rules,
    ) -> Option<Assessed<'_>> {
        if check == Check::Chain {
            let assessed = self.assessed(place, tables, rules);
            return (assessed.number != 0).then_some(assessed);
        }
        let refused = self.check_refusal(check, place, tables, rules).err()?;
        Some(rules.checks().refused(refused, self))
    }

    /// One of 1, 3, 4, 5 and 14, with the place of the record that is meant.
    fn check_refusal(
        &self,
        check: Check,
        place: Option<usize>,
        tables: &Tables,
        rules: &impl Rules,
    ) -> Result<(), Refusal> {
        let list = tables.ipsec.records.len();
        let record = place.map(|place| tables.ike.records[place]);
        let is_agreed = record.is_some_and(|it| rules.tables().is_yes(it.agreed.mobike));
        let is_pending = record.is_some_and(|it| {
            let kept = rules.checks().kept(&it.check).is_some();
            kept && rules.checks().same_id(it.check.id, self.id)
        });
        match check {
            Check::Spi => refuse_if(self.spi == 0, Refusal::Argument),
            Check::List => {
                let allowed = rules.tables().allows_list(User::CheckResponse, list);
                refuse_if(!allowed, Refusal::Argument)
            }
            Check::Operator => {
                refuse_if(rules.tables().named(self.operator).is_none(), Refusal::Argument)
            }
            Check::Body => {
                refuse_if(self.body.len() > rules.chain().longest_body(), Refusal::BodyTooLong)
            }
            Check::Record => refuse_if(place.is_none(), Refusal::NoSuchRecord),
            Check::Agreed => refuse_if(!is_agreed, Refusal::MobikeNotAgreed),
            Check::Pending => refuse_if(!is_pending, Refusal::NoPendingCheck),
            // As `assessed` tells it.
            Check::Chain => Ok(()),
        }
    }

    /// What the response comes to by the cookie that is kept.
    fn assessed(&self, place: Option<usize>, tables: &Tables, rules: &impl Rules) -> Assessed<'_> {
        let check = place.map(|place| tables.ike.records[place].check);
        let sent = check.and_then(|check| rules.checks().kept(&check)).unwrap_or_default();
        assess(&sent, self.first, &self.body, rules)
    }

    /// Of a response that passed its checks.
    fn read(&self, place: usize, tables: &mut Tables, rules: &impl Rules) -> Assessed<'_> {
        let of_checks = rules.checks();
        let assessed = self.assessed(Some(place), tables, rules);
        let record = tables.ike.records[place];
        let verdict = Verdict::of(assessed.outcome);
        match of_checks.step(verdict) {
            Step::Move => {
                let moved = |it: &&mut _| rules.tables().owns(&record, it);
                let owned = tables.ipsec_mut().iter_mut().filter(moved);
                owned.for_each(|it| it.pair = of_checks.pair(&record));
            }
            Step::Close => {
                let closes = |owned| of_checks.closes_ipsec(owned);
                closing::close_place(tables, place, closes, rules.tables());
            }
            Step::Nothing => {}
        }
        let left = &mut tables.ike_mut()[place];
        if left.is_in_use() {
            left.check = of_checks.ended(left.check, verdict);
            left.unknown = of_checks.tally(left.unknown, assessed.tally);
        }
        assessed
    }
}

#[cfg(test)]
mod tests {
    use super::*;
    use crate::address::AddressPair;
    use crate::agreed::Agreed;
    use crate::pending::PendingCheck;
    use crate::rules::Plain;
    use crate::tables::{IkeRecord, IpsecRecord};

    const OLD: AddressPair = AddressPair { family: 4, source_port: 1, ..AddressPair::ZERO };
    const NEW: AddressPair = AddressPair { family: 4, source_port: 2, ..AddressPair::ZERO };
    const CHECK: PendingCheck = PendingCheck { length: 8, octets: [5; 64], id: 3 };

    /// An IKE record that has moved, two IPsec records of it, one of another, and a free place that names it.
    fn tables() -> Tables {
        let mut tables = Tables::empty();
        let agreed = Agreed { mobike: 1, ..Agreed::NOTHING };
        let record = IkeRecord { spi: 7, agreed, pair: NEW, unknown: 4, ..IkeRecord::FREE };
        tables.ike_mut()[1] = IkeRecord { check: CHECK, update_mark: 9, ..record };
        for (place, (spi, owner)) in [(1, 7), (2, 8), (0, 7), (3, 7)].into_iter().enumerate() {
            tables.ipsec_mut()[place] = IpsecRecord { spi, owner, pair: OLD };
        }
        tables
    }

    /// With notifications by type and data.
    fn response(notifications: &[(u16, &[u8])]) -> CheckResponse {
        let mut body = Vec::new();
        for (place, (notify_type, data)) in notifications.iter().enumerate() {
            let next = if place + 1 < notifications.len() { 41 } else { 0 };
            body.extend([next, 0, 0, 8 + data.len() as u8, 0, 0]);
            body.extend(notify_type.to_be_bytes());
            body.extend_from_slice(data);
        }
        let first = if body.is_empty() { 0 } else { 41 };
        CheckResponse { spi: 7, id: 3, first, body, operator: 0 }
    }

    fn decided(response: &CheckResponse, tables: &mut Tables) -> (u8, u8) {
        let assessed = decide(response, tables, &Plain);
        (assessed.number, assessed.outcome)
    }

    #[test]
    fn the_right_cookie_moves_the_ipsec_records_of_the_spi_and_ends_the_check() {
        let (mut tables, mut expected) = (tables(), tables());
        let tallied = response(&[(16401, &[5; 8]), (16403, &[])]);
        assert_eq!(decided(&tallied, &mut tables), (0, 5));
        expected.ike_mut()[1].check = PendingCheck::NONE;
        (expected.ipsec_mut()[0].pair, expected.ipsec_mut()[3].pair) = (NEW, NEW);
        assert_eq!(tables, expected);
        assert_eq!(decided(&tallied, &mut tables), (14, 0));
    }

    #[test]
    fn a_wrong_cookie_or_none_closes_the_record_with_its_ipsec_records() {
        for answer in [response(&[(16401, &[6; 8])]), response(&[(16401, &[5; 9])]), response(&[])]
        {
            let (mut tables, mut expected) = (tables(), tables());
            assert_eq!(decided(&answer, &mut tables), (0, 1));
            expected.ike_mut()[1] = IkeRecord::FREE;
            expected.ipsec_mut()[0] = IpsecRecord::FREE;
            expected.ipsec_mut()[3] = IpsecRecord::FREE;
            assert_eq!(tables, expected);
        }
    }

    #[test]
    fn an_error_only_ends_the_check() {
        for (error, outcome) in [(41, 2), (40, 3), (7, 4)] {
            let (mut tables, mut expected) = (tables(), tables());
            assert_eq!(decided(&response(&[(error, &[])]), &mut tables), (0, outcome));
            expected.ike_mut()[1].check = PendingCheck::NONE;
            assert_eq!(tables, expected);
        }
    }

    #[test]
    fn refusals_come_in_their_order_and_change_nothing() {
        let right = response(&[(16401, &[5; 8])]);
        let flawed = CheckResponse { body: vec![0, 0, 0, 3], ..right.clone() };
        let long = CheckResponse { body: vec![0; 4097], ..right.clone() };
        let with = |spi, id, of: &CheckResponse| CheckResponse { spi, id, ..of.clone() };
        let of_length = |length| {
            let mut tables = tables();
            tables.ike_mut()[1].check.length = length;
            tables
        };
        let mut disagreed = of_length(0);
        disagreed.ike_mut()[1].agreed.mobike = 0;
        let short = tables().with_ipsec_length(127);
        let refused = [
            (tables(), with(0, 4, &long), 1),
            (short, with(9, 4, &long), 1),
            (tables(), CheckResponse { operator: 2, ..with(9, 4, &long) }, 1),
            (tables(), CheckResponse { operator: 1, ..right.clone() }, 4),
            (tables(), with(9, 4, &long), 3),
            (tables(), with(9, 4, &flawed), 4),
            (disagreed, with(7, 4, &flawed), 5),
            (tables(), with(7, 4, &flawed), 14),
            (of_length(0), right.clone(), 14),
            (of_length(7), right.clone(), 14),
            (of_length(65), right.clone(), 14),
            (of_length(255), right, 14),
            (tables(), flawed, 61),
            (tables(), CheckResponse { first: 200, body: vec![0, 0x80, 0, 4], ..response(&[]) }, 7),
        ];
        for (mut tables, response, number) in refused {
            let before = tables.clone();
            let assessed = decide(&response, &mut tables, &Plain);
            assert_eq!(assessed, Assessed { number, ..Assessed::default() });
            assert_eq!(tables, before);
        }
    }
}
