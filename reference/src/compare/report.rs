// How a case is shown: how much of it, its input, and the two programs' fields side by side.
use reference::show::hex;

#[derive(Debug, Clone, Copy, PartialEq, Eq)]
pub enum Detail {
    Nothing,
    DifferingFields,
    AllFields,
}

impl Detail {
    /// Whether a case is shown at all.
    pub fn shows(self, agrees: bool) -> bool {
        match self {
            Detail::Nothing => false,
            Detail::DifferingFields => !agrees,
            Detail::AllFields => true,
        }
    }
}

/// Names and values.
type Fields = [(String, String)];

/// A line for each field of a case's input.
pub fn input(fields: &Fields) -> Vec<String> {
    fields.iter().map(|(name, value)| format!("  {name}: {value}")).collect()
}

/// The lines of a chain's input.
pub fn chain(first: u8, body: &[u8]) -> Vec<String> {
    let fields = [
        ("first type", first.to_string()),
        ("body length", body.len().to_string()),
        ("body", hex(body)),
    ];
    input(&fields.map(|(name, value)| (name.to_string(), value)))
}

/// A line for each field that is to be shown; a star marks those that differ.
pub fn compared(ours: &Fields, reference: &Fields, detail: Detail) -> Vec<String> {
    side_by_side([("ours", ours), ("reference", reference)], detail)
}

/// The same of any two, by their names.
pub fn side_by_side([one, other]: [(&str, &Fields); 2], detail: Detail) -> Vec<String> {
    let mut lines = Vec::new();
    for ((name, value), (_, other_value)) in one.1.iter().zip(other.1) {
        let differs = value != other_value;
        if differs || detail == Detail::AllFields {
            let mark = if differs { '*' } else { ' ' };
            lines.push(format!("{mark} {name}: {} {value} | {} {other_value}", one.0, other.0));
        }
    }
    lines
}

/// A line where the library changed what is around what it was lent, or rules lent for reading.
pub fn around(is_kept: bool) -> Option<String> {
    (!is_kept)
        .then(|| "* around what was lent, or rules lent for reading: ours changed".to_string())
}
