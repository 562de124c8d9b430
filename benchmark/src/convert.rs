// The library's records, openings, responses and policies in the second program's form, field by field.
use reference::address::{Address, AddressPair};
use reference::agreed::Agreed;
use reference::check::CheckResponse;
use reference::opening_both::Opening;
use reference::pending::PendingCheck;
use reference::policy::{Policy, Rule};
use reference::tables::{IkeRecord, IpsecRecord, Tables};

pub fn address(of: &unmavreth::Address) -> Address {
    Address { family: of.family, octets: of.octets }
}

pub fn pair(of: &unmavreth::Pair) -> AddressPair {
    AddressPair {
        family: of.family,
        source: of.source,
        destination: of.destination,
        source_port: of.source_port,
        destination_port: of.destination_port,
    }
}

fn agreed(of: &unmavreth::Agreed) -> Agreed {
    let [mobike, cloning] = [of.mobike, of.cloning].map(|flag| u8::from(flag.is_set()));
    Agreed { mobike, cloning, operator: of.operator.into(), peer: of.peer }
}

fn ike(of: &unmavreth::IkeRecord) -> IkeRecord {
    IkeRecord {
        spi: of.spi,
        agreed: agreed(&of.agreed),
        pair: pair(&of.pair),
        update_mark: of.update_mark,
        list_mark: of.list_mark,
        count: of.count,
        addresses: of.addresses.each_ref().map(address),
        unknown: of.unknown,
        check: pending(&of.check),
        deleting: u8::from(of.deleting.is_set()),
    }
}

fn pending(of: &unmavreth::PendingCheck) -> PendingCheck {
    PendingCheck { length: of.length, octets: of.octets, id: of.id }
}

pub fn check_response(of: &unmavreth::CheckResponse<'_>) -> CheckResponse {
    let (body, operator) = (of.body.to_vec(), of.operator.into());
    CheckResponse { spi: of.spi, id: of.id, first: of.first, body, operator }
}

fn ipsec(of: &unmavreth::IpsecRecord) -> IpsecRecord {
    IpsecRecord { spi: of.spi, owner: of.owner, pair: pair(&of.pair) }
}

pub fn opening(of: &unmavreth::Opening) -> Opening {
    Opening { spi: of.spi, agreed: agreed(&of.agreed), pair: pair(&of.pair), child: of.child }
}

fn rule(of: &unmavreth::Rule) -> Rule {
    Rule {
        family: of.family,
        source: of.source,
        destination: of.destination,
        source_length: of.source_len,
        destination_length: of.destination_len,
    }
}

pub fn policy(of: &unmavreth::Policy) -> Policy {
    Policy { count: of.count, rules: of.rules.each_ref().map(rule) }
}

/// Tables of their own: the second program copies those that it shares when it changes them.
pub fn tables(
    records: &[unmavreth::IkeRecord; 32],
    list: &[unmavreth::IpsecRecord; 128],
    policies: &[unmavreth::Policy; 2],
) -> Tables {
    let mut tables = Tables::empty();
    *tables.ike_mut() = records.each_ref().map(ike);
    tables.ipsec_mut().copy_from_slice(&list.each_ref().map(ipsec));
    tables.policies = policies.each_ref().map(policy);
    tables
}
