//! `print_listing SHEET ASKS`: the second guard's floor listing of two files. What cannot be read is empty.

use second_guard::listing::listing;
use std::{env, fs};

fn main() {
    let mut paths = env::args().skip(1);
    let mut next = || fs::read(paths.next().expect("two paths")).unwrap_or_default();
    let sheet = next();
    let asks = next();
    print!("{}", listing(&sheet, &asks));
}
