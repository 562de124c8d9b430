// What the request writer is given as it is shown: its arguments by name.
use crate::asking::Arguments;
use crate::show;

pub fn of(arguments: &Arguments) -> Vec<(String, String)> {
    let ask = arguments.ask;
    let fields = [
        ("update", ask.update.to_string()),
        ("no NATs allowed", ask.no_nats.to_string()),
        ("NAT source", ask.nat_source.to_string()),
        ("NAT destination", ask.nat_destination.to_string()),
        ("no additional addresses", ask.no_additional.to_string()),
        ("count of addresses", ask.count.to_string()),
        ("clone supported", ask.clone_supported.to_string()),
        ("clone", ask.clone.to_string()),
        ("pair", show::pair(&arguments.pair)),
        ("lent NAT source", show::hex(&arguments.nat_source)),
        ("lent NAT destination", show::hex(&arguments.nat_destination)),
        ("cookie", show::hex(&arguments.cookie)),
        ("output's length", arguments.output.len().to_string()),
        ("output before", show::hex(&arguments.output)),
    ];
    let mut fields = fields.map(|(name, value)| (name.to_string(), value)).to_vec();
    let list = arguments.addresses.iter().map(show::address).enumerate();
    fields.extend(list.map(|(place, address)| (format!("address {place}"), address)));
    fields
}
