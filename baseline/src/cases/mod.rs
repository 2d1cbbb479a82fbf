//! Test charts, texts, tables and sheets worked out from a seed, each with what the paper says of it by the way it was made.

pub mod by_hand;
pub mod charts;
pub mod drawing;
pub mod grades;
pub mod house;
pub mod pairs;
pub mod rng;
pub mod sheets;
pub mod stored;
pub mod tables;
pub mod texts;
pub mod tight;

pub use charts::{chart_case, ChartCase, ChartFault};
pub use drawing::Drawing;
pub use grades::GradeTables;
pub use house::House;
pub use pairs::reached_pairs;
pub use rng::Rng;
pub use sheets::{sheet_case, SheetCase, SheetFault};
pub use stored::Stored;
pub use tables::{table_case, TableCase, TableFault};
pub use texts::{text_case, TextCase, TextFault};

/// What is known of a case by the way it was made.
#[derive(Clone, Copy, Debug, PartialEq, Eq)]
pub struct Expected {
    /// The refusal's number, or 0 for none.
    pub number: u8,
    /// The refusal's first value (law or line), where the way it was made fixes it.
    pub first: Option<usize>,
}

impl Expected {
    pub const GOOD: Expected = Expected { number: 0, first: None };

    pub fn refusal(number: u8) -> Self {
        Expected { number, first: None }
    }

    pub fn law(law: usize) -> Self {
        Expected { number: 4, first: Some(law) }
    }

    pub fn line(line: usize) -> Self {
        Expected { number: 14, first: Some(line) }
    }
}
