// A request and a check response as they are shown: their arguments by name.
use crate::check::CheckResponse;
use crate::request::Request;
use crate::show;

pub fn of(request: &Request) -> Vec<(String, String)> {
    let fields = [
        ("SPI", request.spi.to_string()),
        ("ID", request.id.to_string()),
        ("packet's pair", show::pair(&request.pair)),
        ("lent NAT source", show::hex(&request.nat_source)),
        ("lent NAT destination", show::hex(&request.nat_destination)),
        ("lent cookie", show::hex(&request.cookie)),
        ("ID of our request", request.check_id.to_string()),
        ("operator", request.operator.to_string()),
        ("first type", request.first.to_string()),
        ("body length", request.body.len().to_string()),
        ("body", show::hex(&request.body)),
        ("output before", show::hex(&request.output)),
    ];
    fields.map(|(name, value)| (name.to_string(), value)).to_vec()
}

pub fn of_check(response: &CheckResponse) -> Vec<(String, String)> {
    let fields = [
        ("SPI", response.spi.to_string()),
        ("ID", response.id.to_string()),
        ("operator", response.operator.to_string()),
        ("first type", response.first.to_string()),
        ("body length", response.body.len().to_string()),
        ("body", show::hex(&response.body)),
    ];
    fields.map(|(name, value)| (name.to_string(), value)).to_vec()
}
