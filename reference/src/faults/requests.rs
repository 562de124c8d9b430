// Faults of a request's rules. The first four are those of document 01, "Errors the old code invites", but for that of
// IPsec records moved by their pair, which is one of the tables' rules.
use super::chain::{cookie_in, notifies_in, unsplit};
use super::tables::twins;
use super::Row;
use crate::address::{Address, AddressPair};
use crate::flaws::{Cause, Flaw};
use crate::kind::Kind;
use crate::notifications::Notification;
use crate::notify::NotifyType;
use crate::outcome::Place;
use crate::pending::{PendingCheck, MOST_COOKIE};
use crate::reply::Reply;
use crate::request::Check::{self, Agreed, Argument, Body, Chain, List, Output, Record};
use crate::request::Request;
use crate::response::Served;
use crate::rules::{ChainRules, Plain, RequestRules, TableRules};
use crate::steps::{mark, Effect, Unfit};
use crate::summary::{Summary, MAX_KEPT};
use crate::tables::{IkeRecord, IpsecRecord, IKE_PLACES};

pub const FAULTS: &[Row<dyn RequestRules>] = &[
    (
        Kind::Requests,
        "mark-when-applied",
        "The update mark is set only when the update is applied.",
        &MarkWhenApplied,
    ),
    (Kind::Requests, "one-mark", "Lists are held against the update mark.", &OneMark),
    (
        Kind::Requests,
        "list-appended",
        "New addresses are added to those kept before.",
        &ListAppended,
    ),
    (
        Kind::Requests,
        "no-nats-old-pair",
        "NO_NATS_ALLOWED is compared with the record's pair.",
        &NoNatsOldPair,
    ),
    (
        Kind::Requests,
        "output-first",
        "Check 2 comes before check 1.",
        &Order(&[Output, Argument, List, Body, Record, Agreed, Chain]),
    ),
    (
        Kind::Requests,
        "body-last",
        "Check 3 comes after 4 and 5.",
        &Order(&[Argument, List, Output, Record, Agreed, Body, Chain]),
    ),
    (
        Kind::Requests,
        "agreement-last",
        "Check 5 comes after 61 to 65 and 7.",
        &Order(&[Argument, List, Output, Body, Record, Chain, Agreed]),
    ),
    (
        Kind::Requests,
        "served-list-last",
        "The IPsec list's length is checked after 2 to 7.",
        &Order(&[Argument, Output, Body, Record, Agreed, Chain, List]),
    ),
    (
        Kind::Requests,
        "nat-source-length-only",
        "The length of the lent NAT destination isn't checked.",
        &NatSourceLengthOnly,
    ),
    (
        Kind::Requests,
        "check-cookie-0",
        "A cookie of no octets is allowed, as for a request to write.",
        &AllowsCookie(|request| request.cookie.is_empty()),
    ),
    (
        Kind::Requests,
        "check-cookie-65",
        "A cookie of 65 octets or more is allowed, and cut to 64.",
        &AllowsCookie(|request| request.cookie.len() > MOST_COOKIE),
    ),
    (
        Kind::Requests,
        "check-cookie-with-update",
        "The length of the cookie is looked at only with an update.",
        &AllowsCookie(|request| {
            let notifies = notifies_in(request.first, &request.body);
            notifies.iter().all(|it| it.notify_type != NotifyType::UPDATE_SA_ADDRESSES)
        }),
    ),
    (Kind::Requests, "tally-once", "A request adds 1 to the tally at most.", &TallyOnce),
    (Kind::Requests, "tally-wraps", "The tally starts again at 0.", &TallyWraps),
    (
        Kind::Requests,
        "unfit-untallied",
        "With 8 and 9 nothing is added to the tally.",
        &UnfitUntallied,
    ),
    (
        Kind::Requests,
        "keepalive-moves",
        "With both NAT detection kinds and no update step 2 is taken as with an update.",
        &KeepaliveMoves,
    ),
    (
        Kind::Requests,
        "no-nats-alone",
        "NO_NATS_ALLOWED is checked without an update.",
        &NoNatsAlone,
    ),
    (
        Kind::Requests,
        "policy-alone",
        "The policy is asked without an update, which gives 9.",
        &PolicyAlone,
    ),
    (Kind::Requests, "equal-id-new", "An ID equal to a mark exceeds it.", &EqualIdNew),
    (Kind::Requests, "none-is-id-0", "No mark is taken as a mark of ID 0.", &NoneIsId0),
    (Kind::Requests, "stale-refused", "A stale update is refused with 8 and 9.", &StaleRefused),
    (
        Kind::Requests,
        "no-nats-family",
        "A NO_NATS_ALLOWED of the other family may be equal.",
        &NoNatsFamily,
    ),
    (
        Kind::Requests,
        "no-nats-ports",
        "The ports of NO_NATS_ALLOWED aren't compared.",
        &NoNatsPorts,
    ),
    (Kind::Requests, "policy-first", "9 is checked before 8.", &PolicyFirst),
    (Kind::Requests, "twins-move", "All IKE records with the SPI take the pair.", &TwinsMove),
    (
        Kind::Requests,
        "moved-agreed-1",
        "An update that is applied sets the octet of what is agreed to 1.",
        &MoveIke(|record| record.agreed.mobike = 1),
    ),
    (
        Kind::Requests,
        "moved-undeleted",
        "An update that is applied clears the mark for being deleted.",
        &MoveIke(|record| record.deleting = 0),
    ),
    (
        Kind::Requests,
        "ipsec-moved-at-once",
        "An applied update moves the IPsec records of its IKE record, as before E6.",
        &MovesAtOnce(|ike, ipsec| Plain.owns(ike, ipsec)),
    ),
    (
        Kind::Requests,
        "ipsec-moved-if-none-pending",
        "It moves them at once where no check was pending.",
        &MovesAtOnce(|ike, ipsec| ike.check.length == 0 && Plain.owns(ike, ipsec)),
    ),
    (
        Kind::Requests,
        "check-stale-kept",
        "The check is kept for a stale update too.",
        &KeepsCheck(|updated| updated == Ok(Effect::Stale)),
    ),
    (
        Kind::Requests,
        "check-unfit-kept",
        "The check is kept with 8 and 9 too.",
        &KeepsCheck(|updated| updated.is_err()),
    ),
    (
        Kind::Requests,
        "check-without-update",
        "The check is kept without an update too.",
        &KeepsCheck(|updated| updated == Ok(Effect::None)),
    ),
    (
        Kind::Requests,
        "older-check-stays",
        "A check that is pending isn't replaced.",
        &KeptCheck(|kept, older, _| {
            if older.length != 0 {
                *kept = *older;
            }
        }),
    ),
    (
        Kind::Requests,
        "check-cookie-leftovers",
        "Octets past the cookie's length stay as they were.",
        &KeptCheck(|kept, older, _| {
            let length = usize::from(kept.length);
            kept.octets[length..].copy_from_slice(&older.octets[length..]);
        }),
    ),
    (
        Kind::Requests,
        "check-peer-id",
        "The check keeps the ID of the peer's request.",
        &KeptCheck(|kept, _, request| kept.id = request.id),
    ),
    (
        Kind::Requests,
        "check-peer-cookie",
        "The check keeps the cookie of the peer's request, if it has one.",
        &KeptCheck(|kept, _, request| {
            if let Some(cookie) = cookie_in(request.first, &request.body) {
                *kept = PendingCheck::of(cookie.octets, kept.id);
            }
        }),
    ),
    (Kind::Requests, "unfit-list", "Step 3 is taken with 8 and 9 too.", &UnfitList),
    (
        Kind::Requests,
        "list-with-update",
        "A stale update makes the list stale.",
        &ListWithUpdate,
    ),
    (
        Kind::Requests,
        "list-leftovers",
        "Places past the new list's count keep the old addresses.",
        &ListLeftovers,
    ),
    (
        Kind::Requests,
        "stale-left-off",
        "Addresses left off are told of a stale list.",
        &StaleLeftOff,
    ),
    (Kind::Requests, "critical-untold", "The error of 7 has no data.", &CriticalUntold),
    (
        Kind::Requests,
        "syntax-number-written",
        "INVALID_SYNTAX has the number of 61 to 65 as data.",
        &SyntaxNumberWritten,
    ),
    (Kind::Requests, "flawed-cookie", "COOKIE2 is copied with 61 to 65 and 7.", &FlawedCookie),
    (
        Kind::Requests,
        "flawed-nat-values",
        "NAT values are written after the error of 61 to 65 and 7.",
        &FlawedNatValues,
    ),
    (
        Kind::Requests,
        "unfit-exchanged",
        "The errors of 8 and 9 are exchanged.",
        &UnfitExchanged,
    ),
    (
        Kind::Requests,
        "cookie-before-error",
        "COOKIE2 comes before the error of 8 and 9.",
        &CookieBeforeError,
    ),
    (Kind::Requests, "unfit-nat-values", "NAT values are written with 8 and 9.", &UnfitNatValues),
    (
        Kind::Requests,
        "nat-values-update-only",
        "NAT values are written only with an update, as document 01 had it.",
        &Withholds(|served| !served.summary.update),
    ),
    (
        Kind::Requests,
        "stale-nat-values",
        "NAT values aren't written for a stale update.",
        &Withholds(|served| served.update == Effect::Stale),
    ),
    (
        Kind::Requests,
        "keepalive-late-no-values",
        "Without an update NAT values aren't written for an ID that doesn't exceed the update mark.",
        &Withholds(|served| {
            let late = mark(served.request.id) <= served.record.update_mark;
            !served.summary.update && late
        }),
    ),
    (
        Kind::Requests,
        "keepalive-moved-no-values",
        "Without an update NAT values aren't written where the packet's pair isn't the record's.",
        &Withholds(|served| {
            !served.summary.update && served.request.pair != served.record.pair
        }),
    ),
    (
        Kind::Requests,
        "keepalive-cookie-no-values",
        "Without an update NAT values aren't written beside a cookie.",
        &Withholds(|served| !served.summary.update && served.summary.cookie.is_some()),
    ),
    (
        Kind::Requests,
        "nat-source-enough",
        "A NAT source alone is enough for NAT values.",
        &NatSourceEnough,
    ),
    (
        Kind::Requests,
        "nat-values-echoed",
        "The request's own NAT values are written.",
        &NatValuesEchoed,
    ),
    (
        Kind::Requests,
        "nat-destination-first",
        "The lent destination is written first.",
        &NatDestinationFirst,
    ),
    (
        Kind::Requests,
        "cookie-cut-to-8",
        "Of a cookie the first 8 octets are copied.",
        &CookieCutTo8,
    ),
    (
        Kind::Requests,
        "cookie-before-values",
        "COOKIE2 comes before the NAT values.",
        &CookieBeforeValues,
    ),
    (Kind::Requests, "rest-cleared", "The octets after the response are set to 0.", &RestCleared),
    (
        Kind::Requests,
        "request-unsplit",
        "A request tells 6 in place of 61 to 65.",
        &ToFlawed(|reply, _| reply.number = unsplit(reply.number)),
    ),
    (
        Kind::Requests,
        "request-no-ordinal",
        "A request tells no ordinal.",
        &ToFlawed(|reply, _| reply.ordinal = 0),
    ),
    (
        Kind::Requests,
        "refused-cookie-told",
        "With 1 to 5, 61 to 65 and 7 a cookie of the chain is told and handed out.",
        &RefusedCookieTold,
    ),
    (
        Kind::Requests,
        "unfit-count",
        "With 8 and 9 no payloads are counted.",
        &ToUnfit(|reply| reply.payloads = 0),
    ),
    (
        Kind::Requests,
        "unfit-cookie",
        "With 8 and 9 no cookie is handed over.",
        &ToUnfit(|reply| reply.cookie = Place { offset: 0, length: 0, octets: &[] }),
    ),
];

struct MarkWhenApplied;
impl RequestRules for MarkWhenApplied {
    fn marks(&self, fit: Result<(), Unfit>) -> bool {
        fit.is_ok()
    }
}

struct OneMark;
impl RequestRules for OneMark {
    fn list_mark<'a>(&self, record: &'a mut IkeRecord) -> &'a mut u64 {
        &mut record.update_mark
    }
}

struct ListAppended;
impl RequestRules for ListAppended {
    fn kept_list(&self, before: &IkeRecord, new: &[Address]) -> (u16, [Address; MAX_KEPT]) {
        let already = usize::from(before.count).min(MAX_KEPT);
        let mut list = [&before.addresses[..already], new].concat();
        list.truncate(MAX_KEPT);
        Plain.kept_list(before, &list)
    }
}

struct NoNatsOldPair;
impl RequestRules for NoNatsOldPair {
    fn compared(&self, old: AddressPair, _packet: AddressPair) -> AddressPair {
        old
    }
}

struct Order(&'static [Check]);
impl RequestRules for Order {
    fn order(&self) -> &'static [Check] {
        self.0
    }
}

struct NatSourceLengthOnly;
impl RequestRules for NatSourceLengthOnly {
    fn allows_values(&self, source: &[u8], _destination: &[u8]) -> bool {
        Plain.allows_values(source, source)
    }
}

/// Takes some other cookies too.
struct AllowsCookie(fn(&Request) -> bool);
impl RequestRules for AllowsCookie {
    fn allows_cookie(&self, request: &Request) -> bool {
        self.0(request) || Plain.allows_cookie(request)
    }
}

/// Moves some IPsec records with the IKE record.
struct MovesAtOnce(fn(&IkeRecord, &IpsecRecord) -> bool);
impl RequestRules for MovesAtOnce {
    fn moves_at_once(&self, ike: &IkeRecord, ipsec: &IpsecRecord) -> bool {
        self.0(ike, ipsec)
    }
}

/// Keeps the check of some other requests too.
struct KeepsCheck(fn(Result<Effect, Unfit>) -> bool);
impl RequestRules for KeepsCheck {
    fn keeps_check(&self, updated: Result<Effect, Unfit>) -> bool {
        self.0(updated) || Plain.keeps_check(updated)
    }
}

/// Keeps another check, which is given with the older one and the request.
struct KeptCheck(fn(&mut PendingCheck, &PendingCheck, &Request));
impl RequestRules for KeptCheck {
    fn kept_check(&self, older: &PendingCheck, request: &Request) -> PendingCheck {
        let mut kept = Plain.kept_check(older, request);
        self.0(&mut kept, older, request);
        kept
    }
}

struct TallyOnce;
impl RequestRules for TallyOnce {
    fn unknown(&self, summary: &Summary) -> u32 {
        Plain.unknown(summary).min(1)
    }
}

struct TallyWraps;
impl RequestRules for TallyWraps {
    fn tally(&self, before: u32, unknown: u32, _updated: Result<Effect, Unfit>) -> u32 {
        before.wrapping_add(unknown)
    }
}

struct UnfitUntallied;
impl RequestRules for UnfitUntallied {
    fn tally(&self, before: u32, unknown: u32, updated: Result<Effect, Unfit>) -> u32 {
        let unknown = if updated.is_ok() { unknown } else { 0 };
        Plain.tally(before, unknown, updated)
    }
}

struct KeepaliveMoves;
impl RequestRules for KeepaliveMoves {
    fn has_update(&self, summary: &Summary) -> bool {
        summary.update || summary.has_both_nat_kinds()
    }
}

struct NoNatsAlone;
impl RequestRules for NoNatsAlone {
    fn without_update(&self, fit: Result<(), Unfit>) -> Result<Effect, Unfit> {
        match fit {
            Err(Unfit::Altered) => Err(Unfit::Altered),
            _ => Ok(Effect::None),
        }
    }
}

struct PolicyAlone;
impl RequestRules for PolicyAlone {
    fn without_update(&self, fit: Result<(), Unfit>) -> Result<Effect, Unfit> {
        match fit {
            Err(Unfit::NotAcceptable) => Err(Unfit::NotAcceptable),
            _ => Ok(Effect::None),
        }
    }
}

struct EqualIdNew;
impl RequestRules for EqualIdNew {
    fn exceeds(&self, id: u32, kept: u64) -> bool {
        mark(id) >= kept
    }
}

struct NoneIsId0;
impl RequestRules for NoneIsId0 {
    fn exceeds(&self, id: u32, kept: u64) -> bool {
        mark(id) > kept.max(mark(0))
    }
}

struct StaleRefused;
impl RequestRules for StaleRefused {
    fn stale(&self, fit: Result<(), Unfit>) -> Result<Effect, Unfit> {
        fit.map(|()| Effect::Stale)
    }
}

struct NoNatsFamily;
impl RequestRules for NoNatsFamily {
    fn same_path(&self, told: AddressPair, seen: AddressPair) -> bool {
        AddressPair { family: seen.family, ..told } == seen
    }
}

struct NoNatsPorts;
impl RequestRules for NoNatsPorts {
    fn same_path(&self, told: AddressPair, seen: AddressPair) -> bool {
        let AddressPair { source_port, destination_port, .. } = seen;
        AddressPair { source_port, destination_port, ..told } == seen
    }
}

struct PolicyFirst;
impl RequestRules for PolicyFirst {
    fn fitness(&self, altered: bool, acceptable: bool) -> Result<(), Unfit> {
        if acceptable {
            Plain.fitness(altered, acceptable)
        } else {
            Err(Unfit::NotAcceptable)
        }
    }
}

struct TwinsMove;
impl RequestRules for TwinsMove {
    fn moved(&self, records: &[IkeRecord; IKE_PLACES], meant: usize) -> Vec<usize> {
        twins(records, meant)
    }
}

/// More of the IKE record changes than its pair.
struct MoveIke(fn(&mut IkeRecord));
impl RequestRules for MoveIke {
    fn move_ike(&self, record: &mut IkeRecord, pair: AddressPair) {
        self.0(record);
        Plain.move_ike(record, pair);
    }
}

struct UnfitList;
impl RequestRules for UnfitList {
    fn looks_at_list(&self, _updated: Result<Effect, Unfit>) -> bool {
        true
    }
}

struct ListWithUpdate;
impl RequestRules for ListWithUpdate {
    fn replaces(&self, id: u32, kept: u64, update: Effect) -> bool {
        update != Effect::Stale && Plain.replaces(id, kept, update)
    }
}

struct ListLeftovers;
impl RequestRules for ListLeftovers {
    fn kept_list(&self, before: &IkeRecord, new: &[Address]) -> (u16, [Address; MAX_KEPT]) {
        let mut list = before.addresses;
        list[..new.len()].copy_from_slice(new);
        (new.len() as u16, list)
    }
}

struct StaleLeftOff;
impl RequestRules for StaleLeftOff {
    fn left_off(&self, _list: Effect, left_off: usize) -> usize {
        left_off
    }
}

struct CriticalUntold;
impl RequestRules for CriticalUntold {
    fn error_of_flaw(&self, cause: Cause) -> Notification {
        (Plain.error_of_flaw(cause).0, vec![])
    }
}

struct SyntaxNumberWritten;
impl RequestRules for SyntaxNumberWritten {
    fn error_of_flaw(&self, cause: Cause) -> Notification {
        match Plain.error_of_flaw(cause) {
            (NotifyType::INVALID_SYNTAX, _) => {
                (NotifyType::INVALID_SYNTAX, vec![Plain.number(cause)])
            }
            critical => critical,
        }
    }
}

struct FlawedCookie;
impl RequestRules for FlawedCookie {
    fn to_flawed(&self, request: &Request, flaw: &Flaw) -> Vec<Notification> {
        let cookie = cookie_in(request.first, &request.body);
        let mut response = Plain.to_flawed(request, flaw);
        response.extend(cookie.map(|part| (NotifyType::COOKIE2, part.octets.to_vec())));
        response
    }
}

struct FlawedNatValues;
impl RequestRules for FlawedNatValues {
    fn to_flawed(&self, request: &Request, flaw: &Flaw) -> Vec<Notification> {
        let notifies = notifies_in(request.first, &request.body);
        let has = |kind| notifies.iter().any(|notify| notify.notify_type == kind);
        let mut response = Plain.to_flawed(request, flaw);
        if has(NotifyType::NAT_DETECTION_SOURCE_IP) && has(NotifyType::NAT_DETECTION_DESTINATION_IP)
        {
            response.extend(Plain.values(request, &Summary::default()));
        }
        response
    }
}

struct UnfitExchanged;
impl RequestRules for UnfitExchanged {
    fn error_of_unfit(&self, unfit: Unfit) -> Notification {
        Plain.error_of_unfit(match unfit {
            Unfit::Altered => Unfit::NotAcceptable,
            Unfit::NotAcceptable => Unfit::Altered,
        })
    }
}

struct CookieBeforeError;
impl RequestRules for CookieBeforeError {
    fn to_unfit(&self, request: &Request, unfit: Unfit, summary: &Summary) -> Vec<Notification> {
        let mut response = Plain.to_unfit(request, unfit, summary);
        response.reverse();
        response
    }
}

struct UnfitNatValues;
impl RequestRules for UnfitNatValues {
    fn to_unfit(&self, request: &Request, unfit: Unfit, summary: &Summary) -> Vec<Notification> {
        let mut response = Plain.to_unfit(request, unfit, summary);
        if summary.has_both_nat_kinds() {
            response.splice(1..1, Plain.values(request, summary));
        }
        response
    }
}

/// Writes no NAT values for some requests that are to have them.
struct Withholds(fn(&Served) -> bool);
impl RequestRules for Withholds {
    fn gets_values(&self, served: &Served) -> bool {
        Plain.gets_values(served) && !self.0(served)
    }
}

struct NatSourceEnough;
impl RequestRules for NatSourceEnough {
    fn gets_values(&self, served: &Served) -> bool {
        served.summary.nat_source.is_some()
    }
}

struct NatValuesEchoed;
impl RequestRules for NatValuesEchoed {
    fn values(&self, request: &Request, summary: &Summary) -> Vec<Notification> {
        let own = [summary.nat_source, summary.nat_destination].into_iter();
        let own = own.map(|part| part.map_or(vec![], |part| part.octets.to_vec()));
        let lent = Plain.values(request, summary).into_iter();
        lent.zip(own).map(|((kind, _), value)| (kind, value)).collect()
    }
}

struct NatDestinationFirst;
impl RequestRules for NatDestinationFirst {
    fn values(&self, request: &Request, summary: &Summary) -> Vec<Notification> {
        let mut values = Plain.values(request, summary);
        values.reverse();
        values
    }
}

struct CookieCutTo8;
impl RequestRules for CookieCutTo8 {
    fn copied(&self, summary: &Summary) -> Option<Notification> {
        let (kind, mut octets) = Plain.copied(summary)?;
        octets.truncate(8);
        Some((kind, octets))
    }
}

struct CookieBeforeValues;
impl RequestRules for CookieBeforeValues {
    fn to_done(&self, served: &Served) -> Vec<Notification> {
        let mut response = Plain.to_done(served);
        response.sort_by_key(|(kind, _)| *kind != NotifyType::COOKIE2);
        response
    }
}

struct RestCleared;
impl RequestRules for RestCleared {
    fn output(&self, before: &[u8], response: &[u8]) -> Vec<u8> {
        Plain.output(&vec![0; before.len()], response)
    }
}

struct ToFlawed(fn(&mut Reply, &Flaw));
impl RequestRules for ToFlawed {
    fn reply_to_flawed(&self, number: u8, flaw: &Flaw) -> Reply<'static> {
        let mut reply = Plain.reply_to_flawed(number, flaw);
        self.0(&mut reply, flaw);
        reply
    }
}

struct RefusedCookieTold;
impl RequestRules for RefusedCookieTold {
    fn cookie_of_refused<'a>(&self, request: &'a Request) -> Place<'a> {
        Place::of(cookie_in(request.first, &request.body))
    }
}

struct ToUnfit(fn(&mut Reply));
impl RequestRules for ToUnfit {
    fn reply_to_unfit<'a>(&self, unfit: Unfit, done: Reply<'a>) -> Reply<'a> {
        let mut reply = Plain.reply_to_unfit(unfit, done);
        self.0(&mut reply);
        reply
    }
}
