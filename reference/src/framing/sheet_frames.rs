//! The frames of `sheet_cases`: bytes to be read as a sheet, a network or a log. See CASES.md.

use crate::framing::condition_frames::take;
use crate::framing::pages;
use crate::implementation::machine::Places;
use crate::implementation::network::Network;
use crate::implementation::refusal::Refusal;
use crate::implementation::run;
use crate::implementation::sheet::Sheet;

#[derive(Clone, Copy, Debug, PartialEq, Eq, Hash)]
pub enum Kind {
    Sheet,
    Network,
    Log,
}

impl Kind {
    pub const ALL: [Kind; 3] = [Kind::Sheet, Kind::Network, Kind::Log];

    fn byte(self) -> u8 {
        self as u8
    }

    fn from_byte(byte: u8) -> Option<Kind> {
        Kind::ALL.into_iter().find(|kind| kind.byte() == byte)
    }
}

#[derive(Clone, Debug, PartialEq, Eq, Hash)]
pub struct Frame {
    pub kind: Kind,
    /// The number of program variables that a log is read for; 0 for the other kinds.
    pub program: u8,
    /// At most 65,535.
    pub bytes: Vec<u8>,
}

impl Frame {
    pub fn write(&self, out: &mut Vec<u8>) {
        out.extend([self.kind.byte(), self.program]);
        out.extend((self.bytes.len() as u16).to_be_bytes());
        out.extend(&self.bytes);
    }

    /// The expected line, without its newline.
    pub fn answer(&self) -> String {
        let answer = match self.kind {
            Kind::Sheet => Sheet::read(&self.bytes).map(|sheet| accepted(sheet.places())),
            Kind::Network => Network::read(&self.bytes).map(|network| accepted(network.places())),
            Kind::Log => run::read_log(&self.bytes, self.program).map(|rows| records(rows.len())),
        };
        answer.unwrap_or_else(|refusal: Refusal| refusal.to_string())
    }
}

pub fn accepted(places: Places) -> String {
    format!("accepted {} {}", places.transitions, places.last)
}

pub fn records(count: usize) -> String {
    format!("records {count}")
}

/// Reads the frames of all pages; `None` where something else stands in one.
pub fn read_frames(bytes: &[u8]) -> Option<Vec<Frame>> {
    pages::read(bytes, read_frame)
}

fn read_frame(rest: &mut &[u8]) -> Option<Frame> {
    let kind = Kind::from_byte(take(rest, 1)?[0])?;
    let program = take(rest, 1)?[0];
    let length = take(rest, 2)?;
    let length = usize::from(u16::from_be_bytes([length[0], length[1]]));
    Some(Frame {
        kind,
        program,
        bytes: take(rest, length)?.to_vec(),
    })
}
