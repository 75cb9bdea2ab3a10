//! A plain guard, written from document 01, "The leg press guard: sheets, boxes
//! and the keep", and papers 1, 2, 3, 4, 8 and 9 of document 02 alone. No concern for speed.

pub mod decision;
pub mod listing;
pub mod machine;
pub mod reach;
pub mod readings;
pub mod sheet;

pub use decision::{decide, recovery};
pub use listing::listing;
pub use reach::reach;
pub use readings::{decide_readings, Point, Reading};
pub use sheet::{read, write, write_at, Band, BandLaw, Row, Sheet};
