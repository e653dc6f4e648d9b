//! What is printed: the ratios, how flat our cost is, and what is wanted.

use crate::calls::{Cell, Row};
use crate::data::Kind;
use crate::timing::Ratio;

fn binning(c: &Cell) -> &'static str {
    if c.row.binnings().len() == 1 {
        "either"
    } else if c.binned {
        "yes"
    } else {
        "no"
    }
}

fn named(c: &Cell) -> String {
    format!("{} | {} | {}", c.row.name(), binning(c), c.kind.name())
}

fn shown(r: &Ratio) -> String {
    format!("{:.2} ({:.2})", r.median, r.least)
}

/// The head, with what ours is compared to.
pub fn head(others: &[&str]) {
    let ratios: Vec<String> = others
        .iter()
        .map(|other| format!("ours / {other}"))
        .collect();
    println!(
        "| row | binned | readings | side | {} |",
        ratios.join(" | ")
    );
    println!("|---|---|---|---|{}", "---|".repeat(others.len()));
}

pub fn line(c: &Cell) {
    let ratios: Vec<String> = c.ratios.iter().map(shown).collect();
    println!("| {} | {} | {} |", named(c), c.side, ratios.join(" | "));
}

/// The cost of a cell as a part of that of another, which is the same but for its side or kind.
fn part(cells: &[Cell], c: &Cell, side: usize, kind: Kind) -> f64 {
    let same = |d: &&Cell| d.row == c.row && d.binned == c.binned;
    let mut others = cells.iter().filter(same);
    let other = others.find(|d| d.side == side && d.kind == kind).unwrap();
    c.cost / other.cost
}

pub fn flatness(cells: &[Cell]) {
    println!("\n| row | binned | readings | side | cost per reading, to side 128 | to the first kind of readings |");
    println!("|---|---|---|---|---|---|");
    for c in cells.iter().filter(|c| c.side != 128) {
        let side = part(cells, c, 128, c.kind);
        let kind = part(cells, c, c.side, Kind::FewSaturating);
        println!("| {} | {} | {side:.2} | {kind:.2} |", named(c), c.side);
    }
}

/// What is wanted, beside the least and the largest that was measured at sides 128 to 1,024.
pub struct Wanted<'a> {
    cells: &'a [Cell],
}

impl<'a> Wanted<'a> {
    pub fn of(cells: &'a [Cell]) -> Wanted<'a> {
        println!("\n| wanted, at sides 128 to 1,024 | | measured |");
        println!("|---|---|---|");
        Wanted { cells }
    }

    fn pick(&self, row: Row, fits: impl Fn(&Cell) -> bool) -> impl Iterator<Item = &'a Cell> {
        let large = self
            .cells
            .iter()
            .filter(move |c| c.side >= 128 && c.row == row);
        large.filter(move |c| fits(c))
    }

    fn show(&self, what: &str, wanted: &str, values: impl Iterator<Item = f64>) {
        let values: Vec<f64> = values.collect();
        let least = values.iter().copied().fold(f64::INFINITY, f64::min);
        let largest = values.iter().copied().fold(0.0, f64::max);
        println!("| {what} | {wanted} | {least:.2} to {largest:.2} |");
    }

    /// The ratios to one of the other programs.
    pub fn ratios(
        &self,
        what: &str,
        wanted: &str,
        to: usize,
        row: Row,
        fits: impl Fn(&Cell) -> bool,
    ) {
        let some = self.pick(row, fits).map(|c| c.ratios[to].median);
        self.show(what, wanted, some);
    }

    /// Our cost of a Feed of a whole ramp, as a part of that of the first kind of readings.
    pub fn cost_by_kind(&self, wanted: &str) {
        let some = self.pick(Row::FeedWhole, |_| true);
        self.show(
            "Feed of a whole ramp, cost to the first kind of readings",
            wanted,
            some.map(|c| part(self.cells, c, c.side, Kind::FewSaturating)),
        );
    }

    /// And as a part of that at side 128.
    pub fn cost_by_side(&self, wanted: &str) {
        let some = self.pick(Row::FeedWhole, |_| true);
        self.show(
            "Feed of a whole ramp, cost per reading to side 128",
            wanted,
            some.map(|c| part(self.cells, c, 128, c.kind)),
        );
    }
}
