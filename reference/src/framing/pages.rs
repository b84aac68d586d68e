//! The pages in which the case programs read their input. No frame goes over the end of one.

pub const PAGE: usize = 65_536;
/// The most pages of an input.
pub const MOST: usize = 64;
/// No frame begins with it: behind it the rest of a page is not read.
pub const FILLER: u8 = 255;

/// Fills the page that has been begun, so that what is written next starts a new one.
pub fn fill(out: &mut Vec<u8>) {
    out.resize(out.len().next_multiple_of(PAGE), FILLER);
}

/// Appends a frame, on a new page where this one has no room for it.
pub fn append(frame: &[u8], out: &mut Vec<u8>) {
    let room = PAGE - out.len() % PAGE;
    if room < frame.len() {
        fill(out);
    }
    out.extend(frame);
}

/// Reads the frames of all pages one after the other; `None` where something else stands in one.
pub fn read<T>(bytes: &[u8], frame: fn(&mut &[u8]) -> Option<T>) -> Option<Vec<T>> {
    let mut all = Vec::new();
    for page in bytes.chunks(PAGE) {
        let mut rest = page;
        while rest.iter().any(|byte| *byte != FILLER) {
            all.push(frame(&mut rest)?);
        }
    }
    Some(all)
}
