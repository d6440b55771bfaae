//! Random sheets of many shapes, all within the sizes allowed but those that are there for their row count.

mod balanced;
mod ends;
pub mod families;
mod kinds;
mod shapes;
mod shown;
mod slow;

pub use kinds::{sheet, Kind, KINDS};
pub use shapes::exponential_row;
pub use shown::{joined, rows_shown};
