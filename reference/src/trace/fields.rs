// What the entries of a trace hold, and which of it are numbers of which field.

/// The fields that are numbers.
#[derive(Debug, Clone, Copy, PartialEq, Eq)]
pub enum Field {
    IkeSpi,
    IpsecSpi,
    /// Yes or no.
    Agreed,
    /// A peer's number.
    Peer,
    /// A or B.
    Operator,
    Id,
    Family,
    Port,
    FirstType,
    PrefixLength,
    /// How many rules a list has.
    Count,
    /// How many octets a string has.
    Length,
}

pub const MOST_RULES: usize = 16;
pub const MOST_OCTETS: usize = 4096;

/// Everything that some entry, or a rule of one, holds.
#[derive(Debug, Clone, Copy, PartialEq, Eq)]
pub enum Part {
    IkeSpi,
    IpsecSpi,
    Agreed,
    Peer,
    Cloning,
    /// That of a clone.
    NewSpi,
    Id,
    Family,
    Source,
    Destination,
    SourcePort,
    DestinationPort,
    NatSource,
    NatDestination,
    FirstType,
    Body,
    Cookie,
    CheckId,
    Operator,
    SourceLength,
    DestinationLength,
    /// A list: its count, then its rules.
    Rules,
}

/// How a part stands in a trace.
#[derive(Debug, Clone, Copy, PartialEq, Eq)]
pub enum Form {
    Number(Field),
    Address,
    String,
    List,
}

impl Part {
    pub const COUNT: usize = Part::Rules as usize + 1;

    /// "A pair is, in this order, family, source, destination, source port, destination port".
    pub const PAIR: [Part; 5] =
        [Part::Family, Part::Source, Part::Destination, Part::SourcePort, Part::DestinationPort];

    pub fn form(self) -> Form {
        match self {
            Part::IkeSpi | Part::NewSpi => Form::Number(Field::IkeSpi),
            Part::IpsecSpi => Form::Number(Field::IpsecSpi),
            Part::Agreed | Part::Cloning => Form::Number(Field::Agreed),
            Part::Peer => Form::Number(Field::Peer),
            Part::Operator => Form::Number(Field::Operator),
            Part::Id | Part::CheckId => Form::Number(Field::Id),
            Part::Family => Form::Number(Field::Family),
            Part::SourcePort | Part::DestinationPort => Form::Number(Field::Port),
            Part::FirstType => Form::Number(Field::FirstType),
            Part::SourceLength | Part::DestinationLength => Form::Number(Field::PrefixLength),
            Part::Source | Part::Destination => Form::Address,
            Part::NatSource | Part::NatDestination | Part::Body | Part::Cookie => Form::String,
            Part::Rules => Form::List,
        }
    }
}
