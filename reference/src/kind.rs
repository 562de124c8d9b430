// The kinds of cases: which part of the gateway a case tries.

#[derive(Debug, Clone, Copy, PartialEq, Eq)]
pub enum Kind {
    Reader,
    Tables,
    Requests,
    /// Of responses to return routability checks.
    Checks,
    /// Of requests to clone an IKE SA.
    Clones,
    Orders,
    /// Of two runs, which one operator must not tell apart.
    Isolation,
    /// Of what each operator has of the places.
    Shares,
    Assess,
    Writer,
    RoundTrips,
    Redirects,
    /// Of the replay.
    Traces,
    /// Of what is read and written of a trace, entry by entry.
    Entries,
}

impl Kind {
    pub const ALL: [Kind; 14] = [
        Kind::Reader,
        Kind::Tables,
        Kind::Requests,
        Kind::Checks,
        Kind::Clones,
        Kind::Orders,
        Kind::Isolation,
        Kind::Shares,
        Kind::Assess,
        Kind::Writer,
        Kind::RoundTrips,
        Kind::Redirects,
        Kind::Traces,
        Kind::Entries,
    ];

    pub fn name(self) -> &'static str {
        match self {
            Kind::Reader => "reader",
            Kind::Tables => "tables",
            Kind::Requests => "requests",
            Kind::Checks => "checks",
            Kind::Clones => "clones",
            Kind::Orders => "orders",
            Kind::Isolation => "isolation",
            Kind::Shares => "shares",
            Kind::Assess => "responses",
            Kind::Writer => "writer",
            Kind::RoundTrips => "round-trips",
            Kind::Redirects => "redirects",
            Kind::Traces => "traces",
            Kind::Entries => "entries",
        }
    }
}
