//! Text dumps: bytes in hexadecimal with comments beside them.

/// The bytes of a dump. From `#` to the line's end stands a comment; before it, bytes of two
/// hexadecimal digits each, separated by spaces or `|`.
pub fn bytes(text: &str) -> Result<Vec<u8>, String> {
    let mut out = Vec::new();
    for (line, number) in text.lines().zip(1..) {
        let (before, _) = line.split_once('#').unwrap_or((line, ""));
        let words = before.split(|c: char| c == '|' || c.is_whitespace());
        for word in words.filter(|word| !word.is_empty()) {
            let byte = byte(word).ok_or_else(|| {
                format!("line {number}: `{word}` is not a byte of two hexadecimal digits")
            })?;
            out.push(byte);
        }
    }
    Ok(out)
}

fn byte(word: &str) -> Option<u8> {
    let digits = word.len() == 2 && word.bytes().all(|b| b.is_ascii_hexdigit());
    digits.then(|| u8::from_str_radix(word, 16).ok()).flatten()
}
