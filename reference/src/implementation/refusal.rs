//! The refusals of document 01 and of the requests of document 02, each with its number.

use std::fmt;

#[derive(Clone, Copy, Debug, PartialEq, Eq, PartialOrd, Ord, Hash)]
#[repr(u8)]
pub enum Refusal {
    /// Under 14 bytes, or the length written is not the slice's.
    Length = 1,
    Version = 2,
    /// A count out of range, or a wrong start or bad state.
    Header = 3,
    /// A length byte out of range, or tables that do not end at the end.
    Tables = 4,
    /// A condition or action that is not one by the grammar.
    Grammar = 5,
    /// A number in a transition, triple, pair or template is out of range.
    Reference = 6,
    /// A variable of a kind that its place does not allow.
    Role = 7,
    /// Over four triples of one state and unit.
    Crowded = 8,
    Unsound = 9,
    HasVerdict = 10,
    /// Kind over 1, unit not below U, or not P values.
    Arguments = 11,
    LastPosition = 12,
    AlreadyOpen = 13,
    NoPlace = 14,
    NotOpen = 15,
    LogHeader = 16,
    LogVariables = 17,
    LogRecords = 18,
    Buffer = 19,
    /// A joined condition over 1,024 bytes, or a version 3 network over 65,535.
    TooLong = 21,
    /// The bench's conditions have 1 to 8 bytes.
    NoSuchLength = 22,
    /// The bytes are not one of the bench's conditions of that length.
    NotListed = 26,
}

impl Refusal {
    pub const ALL: [Refusal; 22] = [
        Refusal::Length,
        Refusal::Version,
        Refusal::Header,
        Refusal::Tables,
        Refusal::Grammar,
        Refusal::Reference,
        Refusal::Role,
        Refusal::Crowded,
        Refusal::Unsound,
        Refusal::HasVerdict,
        Refusal::Arguments,
        Refusal::LastPosition,
        Refusal::AlreadyOpen,
        Refusal::NoPlace,
        Refusal::NotOpen,
        Refusal::LogHeader,
        Refusal::LogVariables,
        Refusal::LogRecords,
        Refusal::Buffer,
        Refusal::TooLong,
        Refusal::NoSuchLength,
        Refusal::NotListed,
    ];

    pub fn number(self) -> u8 {
        self as u8
    }
}

impl fmt::Display for Refusal {
    fn fmt(&self, f: &mut fmt::Formatter<'_>) -> fmt::Result {
        write!(f, "refused {}", self.number())
    }
}
