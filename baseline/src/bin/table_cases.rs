//! Writes the stored cases of walking tables: tables and walks, and what document 01 answers, a line for each call.
//!
//!     table_cases SEED COUNT FOLDER

use baseline::cases::{stored, table_case};
use std::process::ExitCode;

fn main() -> ExitCode {
    stored::run("table_cases", |stored, seed, case| table_case(seed, case).store(stored))
}
