//! Sheets and questions as text that a person writes, reads and compares line by line.
//! Bytes go through the guard's archive; the boxes of each step come from the second guard,
//! and whatever both can say is compared.

pub mod archive;
pub mod asks_text;
pub mod attempts;
pub mod box_order;
pub mod causes;
pub mod file;
pub mod file_refusal;
pub mod listing;
pub mod names;
pub mod overlap;
pub mod overlap_picture;
pub mod panels;
pub mod picture;
pub mod plain_law;
pub mod questions;
pub mod readings;
pub mod record_order;
pub mod records;
pub mod refusal;
pub mod sheet_parser;
pub mod sheet_text;
pub mod show;
pub mod svg;
pub mod tokens;
