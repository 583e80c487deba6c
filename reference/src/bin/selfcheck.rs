//! Checks generated cases and reports what they were.

use glykorant_reference::checks;
use std::process::ExitCode;

fn main() -> ExitCode {
    let arguments: Vec<String> = std::env::args().skip(1).collect();
    let Some((seed, count)) = parse(&arguments) else {
        eprintln!("usage: selfcheck --seed N --count M");
        return ExitCode::FAILURE;
    };
    match checks::run(seed, 0..count) {
        Ok(statistics) => {
            println!("{statistics}");
            ExitCode::SUCCESS
        }
        Err(failure) => {
            eprintln!("{failure}");
            ExitCode::FAILURE
        }
    }
}

fn parse(arguments: &[String]) -> Option<(u64, u64)> {
    match arguments {
        [seed_flag, seed, count_flag, count]
            if seed_flag == "--seed" && count_flag == "--count" =>
        {
            Some((seed.parse().ok()?, count.parse().ok()?))
        }
        _ => None,
    }
}
