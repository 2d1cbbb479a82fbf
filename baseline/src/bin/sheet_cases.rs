//! Writes the stored cases of the sheet check: charts, tables and sheets, and what document 01 answers, a line each.
//!
//!     sheet_cases SEED COUNT FOLDER

use baseline::cases::{sheet_case, stored};
use std::process::ExitCode;

fn main() -> ExitCode {
    stored::run("sheet_cases", |stored, seed, case| sheet_case(seed, case).store(stored))
}
