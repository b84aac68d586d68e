//! Reads a sheet and a log from standard input and prints the program's two lines.

use reference::implementation::program::{output, MOST_INPUT};
use std::io::{Read, Write};
use std::process::ExitCode;

fn main() -> ExitCode {
    match work() {
        Ok(()) => ExitCode::SUCCESS,
        Err(message) => {
            eprintln!("watch-reference: {message}");
            ExitCode::FAILURE
        }
    }
}

fn work() -> Result<(), String> {
    if let Some(argument) = std::env::args_os().nth(1) {
        let text = argument.to_string_lossy();
        return Err(format!(
            "no arguments are taken, not {text}; the input is standard input"
        ));
    }
    let mut input = Vec::new();
    // One byte more than is taken shows that the input is too long.
    let mut limited = std::io::stdin().lock().take(MOST_INPUT as u64 + 1);
    limited
        .read_to_end(&mut input)
        .map_err(|error| format!("standard input: {error}"))?;
    let mut stdout = std::io::stdout().lock();
    let written = stdout
        .write_all(output(&input).as_bytes())
        .and_then(|()| stdout.flush());
    written.map_err(|error| format!("standard output: {error}"))
}
