//! Writes the stored cases of the three programs: chart texts, and what nerode, reduced and brz print for each, one after the other.
//!
//!     text_cases SEED COUNT FOLDER

use baseline::cases::{stored, text_case};
use std::process::ExitCode;

fn main() -> ExitCode {
    stored::run("text_cases", |stored, seed, case| text_case(seed, case).store(stored))
}
