// Runs from empty tables: calls of two operators, each drawn to suit what those before left, by which a table may
// become full or an operator come to its share.
pub mod listed;

use super::checks::responses;
use super::clones::requests as clones;
use super::requests::{arguments, starts};
use super::tables::{pairs, rules, spis};
use crate::agreed::Agreed;
use crate::any_call::AnyCall;
use crate::asked::Asked;
use crate::calls::Call;
use crate::cloning::CloneRequest;
use crate::opening::Adding;
use crate::opening_both::Opening;
use crate::operator::{other, View};
use crate::policy::RuleList;
use crate::rng::Rng;
use crate::rules::Plain;
use crate::tables::Tables;

/// What a run comes to.
#[derive(Debug, Clone, Copy)]
pub enum Style {
    /// A few calls of all sorts.
    Short,
    /// Many IKE records, by openings and clones.
    ManyIke,
    /// Many clones of few records, so that a peer has 4.
    Clones,
    /// Many IPsec records.
    ManyIpsec,
}

#[derive(Debug, Clone, Copy)]
enum Making {
    OpenBoth,
    AddIpsec,
    CloseIke,
    CloseIpsec,
    MarkDeletion,
    SetPolicy,
    Request,
    Response,
    Clone,
}

type Weights = [(usize, Making); 9];

impl Style {
    const WEIGHTS: [(usize, Style); 4] =
        [(4, Style::Short), (5, Style::ManyIke), (3, Style::Clones), (1, Style::ManyIpsec)];

    pub fn any(rng: &mut Rng) -> Self {
        rng.pick_weighted(&Self::WEIGHTS)
    }

    /// How many calls a run has.
    fn length(self, rng: &mut Rng) -> usize {
        match self {
            Style::Short => rng.between(2, 24),
            Style::ManyIke | Style::Clones => rng.between(24, 60),
            Style::ManyIpsec => rng.between(90, 200),
        }
    }

    /// How often each call is made: opening, adding, two closings, marking, policy, request, response, clone.
    fn weights(self) -> Weights {
        use Making::{
            AddIpsec, Clone, CloseIke, CloseIpsec, MarkDeletion, OpenBoth, Request, Response,
            SetPolicy,
        };
        let makings = [
            OpenBoth,
            AddIpsec,
            CloseIke,
            CloseIpsec,
            MarkDeletion,
            SetPolicy,
            Request,
            Response,
            Clone,
        ];
        let often = match self {
            Style::Short => [5, 3, 2, 2, 1, 2, 5, 3, 4],
            Style::ManyIke => [40, 2, 1, 1, 1, 1, 1, 1, 6],
            Style::Clones => [12, 1, 1, 1, 1, 1, 1, 1, 30],
            Style::ManyIpsec => [4, 60, 1, 1, 1, 1, 1, 1, 1],
        };
        std::array::from_fn(|place| (often[place], makings[place]))
    }
}

/// A run of both operators.
pub fn run(rng: &mut Rng, style: Style) -> Vec<AnyCall> {
    let length = style.length(rng);
    let turns = turns(rng, length);
    let mut tables = Tables::empty();
    let mut calls = Vec::with_capacity(length);
    for operator in turns {
        let call = call(rng, &tables, operator, style);
        call.make(&mut tables, &Plain);
        calls.push(call);
    }
    calls
}

/// Whose each of so many calls is: as often the one as the other, mostly the one, or first the one and then the other.
fn turns(rng: &mut Rng, count: usize) -> Vec<u8> {
    let one = rng.below(2) as u8;
    let (first, often) = (rng.between(0, count), rng.pick(&[2, 2, 3, 5]));
    let in_turn = rng.one_in(2);
    let whose = |place: usize, rng: &mut Rng| {
        let is_other = if in_turn { place >= first } else { rng.one_in(often) };
        if is_other && !(in_turn && rng.one_in(6)) {
            other(one)
        } else {
            one
        }
    };
    (0..count).map(|place| whose(place, rng)).collect()
}

/// These calls of an operator, with calls of the other drawn before, between and behind them.
pub fn with_others(rng: &mut Rng, own: &[AnyCall], operator: u8, style: Style) -> Vec<AnyCall> {
    let mut tables = Tables::empty();
    let mut calls: Vec<AnyCall> = Vec::new();
    let most = rng.pick(&[0, 1, 1, 2, 3]);
    let push = |calls: &mut Vec<AnyCall>, call: AnyCall, tables: &mut Tables| {
        call.make(tables, &Plain);
        calls.push(call);
    };
    for _ in 0..rng.pick(&[0, 0, 4, 12, 20, 24]) {
        let drawn = call(rng, &tables, other(operator), style);
        push(&mut calls, drawn, &mut tables);
    }
    for own in own {
        for _ in 0..rng.between(0, most) {
            let drawn = call(rng, &tables, other(operator), style);
            push(&mut calls, drawn, &mut tables);
        }
        push(&mut calls, own.clone(), &mut tables);
    }
    calls
}

/// The calls of a run in another order, but that each operator's are in the same.
pub fn interleaved(rng: &mut Rng, run: &[AnyCall]) -> Vec<AnyCall> {
    let of = |operator: u8| run.iter().filter(move |call| call.operator() == operator).cloned();
    let mut left = [of(0).rev().collect::<Vec<_>>(), of(1).rev().collect()];
    let mut calls = Vec::with_capacity(run.len());
    while let Some(counts) = Some(left.each_ref().map(Vec::len)).filter(|it| *it != [0, 0]) {
        let operator = usize::from(rng.below(counts[0] + counts[1]) >= counts[0]);
        calls.extend(left[operator].pop());
    }
    calls
}

/// A call of this operator.
fn call(rng: &mut Rng, tables: &Tables, operator: u8, style: Style) -> AnyCall {
    let own = View::of(tables, operator);
    let has_record = !own.ike.is_empty();
    let weights = style.weights();
    let making = if has_record || rng.one_in(8) {
        rng.pick_weighted(&weights)
    } else {
        rng.pick(&[Making::OpenBoth, Making::OpenBoth, Making::SetPolicy])
    };
    let spi = spi(rng, tables, &own);
    match making {
        Making::OpenBoth => {
            let mobike = u8::from(!rng.one_in(10));
            let (cloning, peer) = (u8::from(!rng.one_in(10)), peer(rng, style));
            let agreed = Agreed { mobike, cloning, operator, peer };
            let (spi, child) = (new_ike_spi(rng, operator), new_ipsec_spi(rng, operator));
            let pair = pairs::pair(rng);
            AnyCall::Table(Call::OpenBoth(Opening { spi, agreed, pair, child }))
        }
        Making::AddIpsec => {
            let adding = Adding { spi: new_ipsec_spi(rng, operator), owner: spi, operator };
            AnyCall::Table(Call::OpenIpsec(adding))
        }
        Making::CloseIke => AnyCall::Table(Call::CloseIke { spi, operator }),
        Making::CloseIpsec => {
            let records = &tables.ipsec.records;
            let own = own.ipsec.iter().chain(&records[..3]);
            let spis: Vec<u32> = own.map(|record| record.spi).collect();
            AnyCall::Table(Call::CloseIpsec { spi: rng.pick(&spis), operator })
        }
        Making::MarkDeletion => AnyCall::Table(Call::MarkDeletion { spi, operator }),
        Making::SetPolicy => AnyCall::Table(setting(rng, operator)),
        Making::Request => {
            let request = arguments::plain_request(rng, tables, spi);
            named(AnyCall::Asked(Asked::Request(request)), operator)
        }
        Making::Response => {
            let response = if rng.one_in(2) {
                responses::right_response(rng, tables, spi)
            } else {
                responses::plain_response(rng, tables, spi)
            };
            named(AnyCall::Asked(Asked::Check(response)), operator)
        }
        Making::Clone => {
            let new_spi = new_ike_spi(rng, operator);
            let request = clones::plain_request(rng, tables, spi);
            AnyCall::Clone(CloneRequest { new_spi, operator, ..request })
        }
    }
}

fn named(mut call: AnyCall, operator: u8) -> AnyCall {
    *call.operator_mut() = operator;
    call
}

/// Mostly that of an own record; else the other's, or one of few.
fn spi(rng: &mut Rng, tables: &Tables, own: &View) -> u64 {
    let records = &tables.ike.records;
    let few = rng.pick(&spis::FEW_IKE);
    let any = records[rng.below(records.len())].spi.max(1);
    if own.ike.is_empty() {
        return rng.pick(&[few, any]);
    }
    let its = own.ike[rng.below(own.ike.len())].spi;
    rng.pick_weighted(&[(20, its), (2, any), (1, few)])
}

/// More than there are places, and hardly ever one that the other operator takes too.
fn new_ike_spi(rng: &mut Rng, operator: u8) -> u64 {
    let whose = if rng.one_in(12) { other(operator) } else { operator };
    spis::ike(2 * rng.below(200) + usize::from(whose))
}

fn new_ipsec_spi(rng: &mut Rng, operator: u8) -> u32 {
    let whose = if rng.one_in(40) { other(operator) } else { operator };
    spis::ipsec(2 * rng.below(1_000) + usize::from(whose))
}

/// So many peers that few reach their limit, or so few that they do.
fn peer(rng: &mut Rng, style: Style) -> u32 {
    match style {
        Style::Clones | Style::Short => rng.below(3) as u32,
        Style::ManyIke | Style::ManyIpsec => rng.below(1_000) as u32,
    }
}

/// Of a policy that accepts all pairs, some, or none.
fn setting(rng: &mut Rng, operator: u8) -> Call {
    let mut policy = rules::policy(rng);
    match rng.below(4) {
        0 => {}
        1 => policy.count = 0,
        _ => starts::open(&mut policy),
    }
    let list = RuleList { rules: policy.rules };
    Call::SetPolicy { count: policy.count, rules: Box::new(list), operator }
}
