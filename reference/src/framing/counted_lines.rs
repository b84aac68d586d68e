//! The count in a line of `condition_cases`, `monitor_cases` or `network_cases` (document 02, slip 3). See CASES.md.

/// An answer with its count behind it.
pub fn with_count(answer: &str, count: u64) -> String {
    format!("{answer} count {count}")
}

/// A line without its count, and the count; none where it has none.
pub fn split_count(line: &str) -> (String, Option<u64>) {
    let Some((answer, behind)) = line.split_once(" count ") else {
        return (line.into(), None);
    };
    let (digits, rest) = behind.split_at(behind.find(' ').unwrap_or(behind.len()));
    (format!("{answer}{rest}"), digits.parse().ok())
}
