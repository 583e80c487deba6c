//! Writes the answers to a file of requests, one line each.

use glykorant_reference::vectors;
use std::io::Write;
use std::process::ExitCode;

fn main() -> ExitCode {
    let arguments: Vec<String> = std::env::args().skip(1).collect();
    let [path] = arguments.as_slice() else {
        eprintln!("usage: vectors REQUESTS");
        return ExitCode::FAILURE;
    };
    match answer_file(path) {
        Ok(()) => ExitCode::SUCCESS,
        Err(message) => {
            eprintln!("{path}: {message}");
            ExitCode::FAILURE
        }
    }
}

fn answer_file(path: &str) -> Result<(), String> {
    let requests = std::fs::read_to_string(path).map_err(|error| error.to_string())?;
    let mut out = std::io::BufWriter::new(std::io::stdout().lock());
    for (at, request) in requests.lines().enumerate() {
        let answer =
            vectors::answer(request).map_err(|_| format!("line {}: not a request", at + 1))?;
        writeln!(out, "{answer}").map_err(|error| error.to_string())?;
    }
    Ok(())
}
