// What makes a chain refused: finds every flaw of it, and the one that is told.
use crate::chain::{Chain, Class, End, Exchange, Payload};
use crate::notify::{Notify, NotifyType};
use crate::rules::ChainRules;

#[derive(Debug, Clone, Copy, PartialEq, Eq)]
pub enum Cause {
    /// Under 4 octets left, or a payload's length under 4 or past the end.
    ChainLength,
    /// A Notify under 8 octets, or an SPI that is past its length or that its type doesn't allow.
    NotifyLength,
    DataSize,
    /// Repeated or contradictory.
    Repetition,
    /// Octets after the end.
    Leftover,
    UnknownCritical {
        payload_type: u8,
    },
}

impl Cause {
    pub fn is_unknown_critical(self) -> bool {
        matches!(self, Cause::UnknownCritical { .. })
    }
}

#[derive(Debug, Clone, Copy, PartialEq, Eq)]
pub struct Flaw {
    pub offset: usize,
    /// Of the payload, also of one that is missing; of octets after the end, the payloads before.
    pub ordinal: usize,
    pub cause: Cause,
}

impl Flaw {
    pub fn of(payload: &Payload, cause: Cause) -> Self {
        Flaw { offset: payload.offset, ordinal: payload.ordinal, cause }
    }
}

/// The flaw that is told of a chain, if it has any.
pub fn told(chain: &Chain, exchange: Exchange, rules: &(impl ChainRules + ?Sized)) -> Option<Flaw> {
    let flaw = all(chain, exchange, rules).into_iter().min_by_key(|flaw| rules.rank(flaw))?;
    Some(Flaw { ordinal: rules.ordinal(&flaw, chain), ..flaw })
}

fn all(chain: &Chain, exchange: Exchange, rules: &(impl ChainRules + ?Sized)) -> Vec<Flaw> {
    let mut flaws = Vec::new();
    let mut notifies = Vec::new();
    for payload in &chain.payloads {
        let critical = cause_of_type(payload.payload_type, payload.flags, rules);
        flaws.extend(critical.map(|cause| Flaw::of(payload, cause)));
        if rules.class(payload.payload_type) != Class::Notify {
            continue;
        }
        let Some(notify) = rules.notify(payload) else {
            flaws.push(Flaw::of(payload, rules.cause_of_notify_length(payload)));
            continue;
        };
        let causes = causes_of_content(&notify, exchange, rules).into_iter();
        flaws.extend(causes.map(|cause| Flaw::of(payload, cause)));
        flaws.extend(flaws_after(&notifies, payload, notify.notify_type, rules));
        notifies.push((payload, notify.notify_type));
    }
    flaws.extend(flaws_of_end(chain, rules));
    flaws
}

/// What is wrong with a notification's SPI and data.
fn causes_of_content(
    notify: &Notify,
    exchange: Exchange,
    rules: &(impl ChainRules + ?Sized),
) -> Vec<Cause> {
    if notify.notify_type.is_of_clones() && rules.knows_clones(exchange) {
        rules.causes_in_clones(notify)
    } else {
        rules.causes_of_content(notify)
    }
}

/// An unknown payload type with the critical bit.
fn cause_of_type(payload_type: u8, flags: u8, rules: &(impl ChainRules + ?Sized)) -> Option<Cause> {
    let refused = rules.refuses_critical(rules.class(payload_type)) && rules.is_critical(flags);
    refused.then_some(Cause::UnknownCritical { payload_type })
}

/// Repeated and contradictory notifications: this one after those before it.
fn flaws_after(
    before: &[(&Payload, NotifyType)],
    later: &Payload,
    notify_type: NotifyType,
    rules: &(impl ChainRules + ?Sized),
) -> Vec<Flaw> {
    let mut flaws = Vec::new();
    let same = before.iter().find(|(_, earlier)| *earlier == notify_type);
    if let (Some((earlier, _)), false) = (same, rules.may_repeat(notify_type)) {
        flaws.push(rules.repeated(earlier, later));
    }
    let other = before.iter().find(|(_, earlier)| rules.contradict(*earlier, notify_type));
    flaws.extend(other.map(|(earlier, _)| rules.contradictory(earlier, later)));
    flaws
}

/// Flaws of what comes after the last payload that lies inside the body.
fn flaws_of_end(chain: &Chain, rules: &(impl ChainRules + ?Sized)) -> Vec<Flaw> {
    match chain.end {
        End::Complete => vec![],
        End::Leftover { offset } => rules.leftover(chain, offset).into_iter().collect(),
        End::HeaderCut { offset, left } => vec![rules.cut_header(chain, offset, left)],
        End::BadLength { offset, payload_type, flags } => {
            let ordinal = chain.payloads.len();
            let critical = cause_of_type(payload_type, flags, rules);
            let causes = [Some(Cause::ChainLength), critical].into_iter().flatten();
            causes.map(|cause| Flaw { offset, ordinal, cause }).collect()
        }
    }
}
