// Tables and calls as they are shown: the fields of a place by name, a call in a line.
use crate::agreed::Agreed;
use crate::calls::Call;
use crate::opening::Adding;
use crate::opening_both::Opening;
use crate::policy::{Policy, Rule};
use crate::show;
use crate::tables::{IkeRecord, IpsecRecord, Record, Tables, IKE_PLACES};

type Fields = Vec<(String, String)>;

/// Every field of each place in which the two differ, of the one and of the other. A place that only
/// the longer IPsec list has is shown as cleared in the other.
pub fn of_differing_places(one: &Tables, other: &Tables) -> [Fields; 2] {
    let ike = (0..IKE_PLACES).filter(|&at| one.ike.records[at] != other.ike.records[at]);
    let longer = one.ipsec.records.len().max(other.ipsec.records.len());
    let ipsec = (0..longer).filter(|&place| ipsec_at(one, place) != ipsec_at(other, place));
    [one, other].map(|tables| {
        let ike = ike.clone().flat_map(|place| ike_fields(place, &tables.ike.records[place]));
        let ipsec = ipsec.clone().flat_map(|place| ipsec_fields(place, &ipsec_at(tables, place)));
        let length = ("IPsec records".to_string(), tables.ipsec.records.len().to_string());
        let policies = tables.policies.iter().enumerate().flat_map(policy_fields);
        ike.chain([length]).chain(ipsec).chain(policies).collect()
    })
}

fn ipsec_at(tables: &Tables, place: usize) -> IpsecRecord {
    tables.ipsec.records.get(place).copied().unwrap_or(IpsecRecord::FREE)
}

fn ike_fields(place: usize, record: &IkeRecord) -> Fields {
    let own = [
        ("SPI", record.spi.to_string()),
        ("MOBIKE", record.agreed.mobike.to_string()),
        ("cloning", record.agreed.cloning.to_string()),
        ("operator", record.agreed.operator.to_string()),
        ("peer", record.agreed.peer.to_string()),
        ("pair", show::pair(&record.pair)),
        ("update mark", record.update_mark.to_string()),
        ("list mark", record.list_mark.to_string()),
        ("list count", record.count.to_string()),
        ("tally", record.unknown.to_string()),
        ("check's cookie length", record.check.length.to_string()),
        ("check's cookie", show::hex(&record.check.octets)),
        ("check's ID", record.check.id.to_string()),
        ("deletion mark", record.deleting.to_string()),
    ];
    let mut fields =
        own.map(|(name, value)| (format!("IKE place {place}, {name}"), value)).to_vec();
    for (address_place, address) in record.addresses.iter().enumerate() {
        let name = format!("IKE place {place}, address {address_place}");
        fields.push((name, show::address(address)));
    }
    fields
}

fn ipsec_fields(place: usize, record: &IpsecRecord) -> Fields {
    let own = [
        ("SPI", record.spi.to_string()),
        ("owner", record.owner.to_string()),
        ("pair", show::pair(&record.pair)),
    ];
    own.map(|(name, value)| (format!("IPsec place {place}, {name}"), value)).to_vec()
}

fn policy_fields((operator, policy): (usize, &Policy)) -> Fields {
    let mut fields = vec![(format!("policy of {operator}, count"), policy.count.to_string())];
    for (place, rule) in policy.rules.iter().enumerate() {
        fields.push((format!("policy of {operator}, rule {place}"), show_rule(rule)));
    }
    fields
}

fn show_rule(rule: &Rule) -> String {
    let (source, destination) = (show::hex(&rule.source), show::hex(&rule.destination));
    let (first, second) = (rule.source_length, rule.destination_length);
    format!("family {}, {source}/{first}, {destination}/{second}", rule.family)
}

pub fn call_line(call: &Call) -> String {
    match call {
        Call::OpenBoth(Opening { spi, agreed, pair, child }) => {
            let (Agreed { mobike, cloning, operator, peer }, pair) = (agreed, show::pair(pair));
            let agreed = format!("MOBIKE {mobike}, cloning {cloning}, peer {peer}");
            format!("open IKE {spi} and IPsec {child}, for {operator}, {agreed}, {pair}")
        }
        Call::OpenIpsec(Adding { spi, owner, operator }) => {
            format!("open IPsec {spi}, for {operator}, owner {owner}")
        }
        Call::CloseIke { spi, operator } => format!("close IKE {spi}, for {operator}"),
        Call::CloseIpsec { spi, operator } => format!("close IPsec {spi}, for {operator}"),
        Call::MarkDeletion { spi, operator } => {
            format!("mark IKE {spi} as being deleted, for {operator}")
        }
        Call::SetPolicy { count, rules, operator } => {
            let rules: Vec<String> = rules.rules.iter().map(show_rule).collect();
            format!("set policy, for {operator}, count {count}: {}", rules.join("; "))
        }
        Call::Acceptable { pair, operator } => {
            format!("acceptable, for {operator}: {}", show::pair(pair))
        }
    }
}
