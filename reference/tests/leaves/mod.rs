//! The variables that stand in the bytes of an expression.

pub const PROGRAM: u8 = 17;
pub const MONITOR: u8 = 18;
pub const AT_ENTRY: u8 = 19;

/// The operator and the number of each. A constant has four bytes of its own; no other operator has any.
pub fn leaves(expression: &[u8]) -> Vec<(u8, u8)> {
    let (mut found, mut rest) = (Vec::new(), expression);
    while let [operator, behind @ ..] = rest {
        rest = match operator {
            16 => &behind[4..],
            PROGRAM..=AT_ENTRY => {
                found.push((*operator, behind[0]));
                &behind[1..]
            }
            _ => behind,
        };
    }
    found
}
