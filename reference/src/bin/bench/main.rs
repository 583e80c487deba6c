//! Measures the proved library beside the second implementation.

#[cfg(archive)]
#[allow(dead_code)]
#[path = "../common/capi.rs"]
mod capi;
#[cfg(archive)]
mod desk;
#[cfg(archive)]
mod measure;

use std::process::ExitCode;

#[cfg(archive)]
fn main() -> ExitCode {
    measure::main()
}

#[cfg(not(archive))]
fn main() -> ExitCode {
    eprintln!("the proved library's archive is not there: run 'tools/build' first");
    ExitCode::FAILURE
}
