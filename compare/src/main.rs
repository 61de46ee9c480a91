//! The original beside the port. `README.md` says what is compared and how.
mod bench;
mod call;
mod calls;
mod clock;
mod expected;
mod file;
mod line;
mod models;
mod port;
mod random;
mod stack;
mod stored;
mod vectors;

use std::process::ExitCode;

fn main() -> ExitCode {
    match std::env::args().nth(1).as_deref() {
        Some("calls") if calls::run() => ExitCode::SUCCESS,
        Some("calls") => ExitCode::FAILURE,
        Some("bench") => {
            bench::run();
            ExitCode::SUCCESS
        }
        Some("growth") => {
            bench::growth();
            ExitCode::SUCCESS
        }
        Some("stack") if bench::stack() => ExitCode::SUCCESS,
        Some("stack") => ExitCode::FAILURE,
        Some("vectors") => {
            vectors::write().expect("the list could not be written");
            ExitCode::SUCCESS
        }
        _ => {
            eprintln!("compare calls | bench | growth | stack | vectors");
            ExitCode::from(2)
        }
    }
}
