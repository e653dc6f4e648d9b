//! What is printed: the ratios, and what is wanted of them.

use crate::rows::{Cell, Row};

pub fn head() {
    println!("| Flags, 1,024 x 1,024 words | ours / straightforward |");
    println!("|---|---|");
}

/// The ratios go far below a hundredth.
pub fn line(c: &Cell) {
    let name = c.row.name();
    println!("| {name} | {:.4} ({:.4}) |", c.ratio.median, c.ratio.least);
}

/// What is wanted, beside the largest that was measured.
pub fn targets(cells: &[Cell]) {
    println!("\n| wanted | | measured |");
    println!("|---|---|---|");
    let show = |what: &str, wanted: &str, fits: &dyn Fn(Row) -> bool| {
        let some = cells.iter().filter(|c| fits(c.row));
        let largest = some.map(|c| c.ratio.median).fold(0.0, f64::max);
        println!("| {what}, ours / straightforward | {wanted} at most | {largest:.4} |");
    };
    show("nearest flag", "1.0", &|row| !row.is_count());
    show("nearest flag, flags 1 %", "0.1", &|row| {
        row == Row::Nearest(100)
    });
    show("count of flags", "1.0", &|row| row.is_count());
}
