//! Writes the stored cases of the chart check: charts, and what document 01 answers, a line each.
//!
//!     check_cases SEED COUNT FOLDER

use baseline::cases::{chart_case, stored};
use std::process::ExitCode;

fn main() -> ExitCode {
    stored::run("check_cases", |stored, seed, case| chart_case(seed, case).store(stored))
}
