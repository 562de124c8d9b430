// What is agreed when an IKE record is opened, with whom, and stays as it is until the record is closed.
//
// Yes or no is an octet, so that any value may be lent and looked at: 0 is no, every other value yes.

#[repr(C)]
#[derive(Debug, Clone, Copy, PartialEq, Eq)]
pub struct Agreed {
    pub mobike: u8,
    /// That the IKE SA may be cloned.
    pub cloning: u8,
    /// Whose the record is: 0 or 1; in tables not reached from empty ones any octet, and one above 1 is neither's.
    pub operator: u8,
    /// The peer's number, any.
    pub peer: u32,
}

impl Agreed {
    pub const NOTHING: Agreed = Agreed { mobike: 0, cloning: 0, operator: 0, peer: 0 };
}

#[cfg(test)]
mod tests {
    use crate::rules::{Plain, TableRules};

    #[test]
    fn only_0_is_no_and_yes_is_kept_as_1() {
        assert!(!Plain.is_yes(0));
        assert_eq!(Plain.kept_yes(0), 0);
        for octet in 1..=255 {
            assert!(Plain.is_yes(octet));
            assert_eq!(Plain.kept_yes(octet), 1);
        }
    }
}
