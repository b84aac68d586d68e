//! The program: one input holds a sheet and a log; two lines come out.

use crate::implementation::run::{run_network, run_sheet, Outcome};
use crate::implementation::translate::{translate, BUFFER};

pub const MOST_INPUT: usize = 65_536;

/// Where the log begins: after as many bytes as the first two say, if there are that many.
pub fn split(input: &[u8]) -> (&[u8], &[u8]) {
    let &[high, low, ..] = input else {
        return (input, &[]);
    };
    let length = usize::from(u16::from_be_bytes([high, low]));
    input.split_at(length.min(input.len()))
}

/// The runs on the sheet and on the network that translating wrote.
pub fn outcomes(input: &[u8]) -> (Outcome, Outcome) {
    let (sheet, log) = split(input);
    let mut buffer = vec![0; BUFFER];
    let network = match translate(sheet, &mut buffer) {
        Ok(length) => run_network(&buffer[..length], log).result,
        Err(refusal) => Outcome::Refused(refusal),
    };
    (run_sheet(sheet, log).result, network)
}

/// All that the program prints for an input.
pub fn output(input: &[u8]) -> String {
    if input.len() > MOST_INPUT {
        return "too long\n".into();
    }
    let (sheet, network) = outcomes(input);
    format!("{sheet}\n{network}\n")
}
