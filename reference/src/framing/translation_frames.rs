//! The frames of `translation_cases`: a sheet, the version of network that it is translated to, and
//! the buffers it is translated into. See CASES.md.

use crate::framing::condition_frames::take;
use crate::framing::pages;
use crate::implementation::network::Version;
use crate::implementation::translate::translate_to;

/// A buffer as it is lent.
#[derive(Clone, Copy, Debug, PartialEq, Eq, Hash)]
pub struct Room {
    pub length: u16,
    pub seed: u8,
}

impl Room {
    /// The buffer before the call. Each byte is 7 more than the one before it.
    pub fn bytes(self) -> Vec<u8> {
        let byte = |place: usize| (usize::from(self.seed) + 7 * place) as u8;
        (0..self.length.into()).map(byte).collect()
    }
}

#[derive(Clone, Debug, PartialEq, Eq, Hash)]
pub struct Frame {
    pub version: Version,
    /// At most 65,535.
    pub sheet: Vec<u8>,
    /// At most 255.
    pub rooms: Vec<Room>,
}

impl Frame {
    pub fn write(&self, out: &mut Vec<u8>) {
        out.push(self.version.byte());
        out.extend((self.sheet.len() as u16).to_be_bytes());
        out.extend(&self.sheet);
        out.push(self.rooms.len() as u8);
        for room in &self.rooms {
            out.extend(room.length.to_be_bytes());
            out.push(room.seed);
        }
    }

    /// The expected lines, one for each buffer, without their newlines.
    pub fn lines(&self) -> Vec<String> {
        self.rooms.iter().map(|room| self.line(*room)).collect()
    }

    fn line(&self, room: Room) -> String {
        let mut buffer = room.bytes();
        let mut line = match translate_to(self.version, &self.sheet, &mut buffer) {
            Ok(length) => format!("written {length}"),
            Err(refusal) => refusal.to_string(),
        };
        if !buffer.is_empty() {
            line.push(' ');
            for byte in buffer {
                line.push_str(&format!("{byte:02x}"));
            }
        }
        line
    }
}

/// Reads the frames of all pages; `None` where something else stands in one.
pub fn read_frames(bytes: &[u8]) -> Option<Vec<Frame>> {
    pages::read(bytes, read_frame)
}

fn read_frame(rest: &mut &[u8]) -> Option<Frame> {
    let version = Version::from_byte(take(rest, 1)?[0])?;
    let length = take(rest, 2)?;
    let length = usize::from(u16::from_be_bytes([length[0], length[1]]));
    let sheet = take(rest, length)?.to_vec();
    let count = take(rest, 1)?[0];
    let mut rooms = Vec::new();
    for _ in 0..count {
        let room = take(rest, 3)?;
        rooms.push(Room {
            length: u16::from_be_bytes([room[0], room[1]]),
            seed: room[2],
        });
    }
    Some(Frame {
        version,
        sheet,
        rooms,
    })
}
