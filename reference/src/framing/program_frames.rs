//! The frames of `cases`: whole inputs of `watch`. See CASES.md.

use crate::implementation::program::output;

pub enum Frame {
    /// An input, byte for byte.
    Bytes(Vec<u8>),
    /// An input of so many zeros.
    Zeros(usize),
}

impl Frame {
    pub fn bytes(&self) -> Vec<u8> {
        match self {
            Frame::Bytes(input) => {
                let length = (input.len() as u16).to_be_bytes();
                [&[0, length[0], length[1]], &input[..]].concat()
            }
            Frame::Zeros(count) => {
                let length = (*count as u32).to_be_bytes();
                vec![1, length[1], length[2], length[3]]
            }
        }
    }

    pub fn write(&self, out: &mut Vec<u8>) {
        out.extend(self.bytes());
    }

    pub fn input(&self) -> Vec<u8> {
        match self {
            Frame::Bytes(input) => input.clone(),
            Frame::Zeros(count) => vec![0; *count],
        }
    }

    /// What the program prints, without the last end of line.
    pub fn lines(&self) -> String {
        output(&self.input()).trim_end().to_string()
    }
}
