//! Compares the proved library with the second implementation, call by call, with every lent
//! byte after each call.

#[cfg(archive)]
#[path = "../common/capi.rs"]
mod capi;
#[cfg(archive)]
mod counts;
#[cfg(archive)]
mod damage;
#[cfg(archive)]
mod keys;
#[cfg(archive)]
mod lent;
#[cfg(archive)]
mod matching;
#[cfg(archive)]
mod run;
#[cfg(archive)]
mod tables;
#[cfg(archive)]
mod vectors;
#[cfg(archive)]
mod words;

use std::process::ExitCode;

#[cfg(archive)]
fn main() -> ExitCode {
    run::main()
}

#[cfg(not(archive))]
fn main() -> ExitCode {
    eprintln!("the proved library's archive is not there: run 'tools/build' first");
    ExitCode::FAILURE
}
