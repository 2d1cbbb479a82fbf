//! An independent reference for lace, written from document 01.
//!
//! Every public call answers `Result<values, Refusal>`; [`Reply`] turns that into the paper's number with its values.
//! Lent memory to be written is a `&mut [u8]`; what stands in it afterwards is part of the answer.

pub mod bench;
pub mod builders;
pub mod cases;
pub mod chart;
pub mod laws;
mod listing;
pub mod programs;
pub mod refusal;
pub mod sheets;
pub mod tables;
pub mod text;
pub mod vectors;

pub use bench::{c_grade, c_step, Reader};
pub use builders::{brzozowski, nerode, reduced};
pub use chart::{check, Chart, Shape};
pub use refusal::{Refusal, Reply};
pub use sheets::check_sheet;
pub use tables::{cap, check_table, check_table_beside, grade, grade_word, step};
pub use text::{print_refusal, print_table, read_chart};
pub use vectors::{combine, row_times, times_col, vector_at, Grades};

/// Most states of a table, and the largest state room.
pub const MOST_STATES: usize = 4096;
/// The largest reverse room.
pub const MOST_REVERSE: usize = 128;
/// Most lines of a sheet.
pub const MOST_LINES: usize = 4096;
