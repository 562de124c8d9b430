// What a call told, in one form for every side.
use crate::rows::Expected;
use reference::tables::Tables;
use unmavreth::redirect::Redirects;

#[derive(PartialEq, Eq)]
pub struct Told {
    /// Every number that was told, by name.
    pub fields: Vec<(&'static str, u64)>,
    /// The cookie and the whole output, where there are such.
    pub octets: Vec<Vec<u8>>,
    /// The tables after the call, in the second program's form.
    pub tables: Option<Tables>,
}

impl Told {
    /// Whether a pair was acceptable.
    pub fn accepted(accepted: bool) -> Self {
        Told { fields: vec![("acceptable", accepted.into())], octets: vec![], tables: None }
    }

    /// What became of a REDIRECT: identity and nonce, and the record after it.
    pub fn decided(number: u8, identity_type: u8, parts: [&[u8]; 2], record: &Redirects) -> Self {
        let mut fields = vec![
            ("number", number.into()),
            ("identity_type", identity_type.into()),
            ("count", record.count.into()),
        ];
        fields.extend(record.times.map(|time| ("time", time)));
        Told { fields, octets: parts.map(<[u8]>::to_vec).to_vec(), tables: None }
    }
}

/// Both sides must have told the same, and what is expected.
pub fn check(one: &Told, other: &Told, expected: &Expected) -> Result<(), String> {
    if one.fields != other.fields {
        return Err(format!("one side told {:?}, another {:?}", one.fields, other.fields));
    }
    if one.octets != other.octets {
        return Err("the octets differ".to_string());
    }
    if one.tables != other.tables {
        return Err("the tables differ".to_string());
    }
    match expected.iter().find(|field| !one.fields.contains(field)) {
        Some((name, value)) => Err(format!("not {name} {value}, but {:?}", one.fields)),
        None => Ok(()),
    }
}
