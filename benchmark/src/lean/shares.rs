// Whose records are whose, and how many an operator has.
use unmavreth::limits::OPERATORS;
use unmavreth::{IkeRecord, IpsecRecord, Operator};

/// Whether it is one of the two.
#[inline]
pub fn is_operator(operator: Operator) -> bool {
    usize::from(u8::from(operator)) < OPERATORS
}

/// Not inlined, for the compiler would keep every SPI from one search to the next.
#[inline(never)]
pub fn ike_of(ike: &[IkeRecord; 32], operator: Operator) -> usize {
    ike.iter().filter(|record| record.spi != 0 && record.agreed.operator == operator).count()
}

/// Each through its owner, at the lowest place that has its SPI.
#[inline(never)]
pub fn ipsec_of(ike: &[IkeRecord; 32], ipsec: &[IpsecRecord; 128], operator: Operator) -> usize {
    let is_own = |owner| {
        let found = ike.iter().find(|record| record.spi == owner);
        owner != 0 && found.is_some_and(|record| record.agreed.operator == operator)
    };
    ipsec.iter().filter(|record| record.spi != 0 && is_own(record.owner)).count()
}
