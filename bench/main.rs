//! Compares the proved program with hand-written ones: same jobs, same machine, same run.

mod agree;
mod best;
mod blocks;
mod board;
mod calls;
mod data;
mod job;
mod limit;
mod ours;
mod plain;
#[path = "../bindings/ramp_board.rs"]
mod ramp_board;
mod rows;
mod settings;
mod table;
mod timing;

use calls::{Cell, Row};
use data::Kind;

const SIDES: [usize; 4] = [32, 128, 512, 1024];

fn show_wanted(cells: &[Cell]) {
    let wanted = table::Wanted::of(cells);
    wanted.ratios(
        "Feed of a whole ramp, 1 % saturate, ours / straightforward",
        "0.55 at most, later 0.45",
        0,
        Row::FeedWhole,
        |c| c.kind == Kind::FewSaturating,
    );
    wanted.ratios(
        "Feed of a whole ramp, most saturate, ours / straightforward",
        "0.25 at most",
        0,
        Row::FeedWhole,
        |c| c.kind == Kind::MostSaturating,
    );
    for (binned, what) in [(false, "Read out, unbinned"), (true, "Read out, binned")] {
        wanted.ratios(
            &format!("{what}, ours / straightforward"),
            "0.35 at most",
            0,
            Row::ReadOut,
            |c| c.binned == binned,
        );
    }
    for (side, most) in [
        (128, "1.15 at most"),
        (512, "1.05 at most"),
        (1024, "1.05 at most"),
    ] {
        wanted.ratios(
            &format!("Feed per row at side {side}, ours / best"),
            most,
            1,
            Row::FeedRows,
            |c| c.side == side,
        );
    }
    wanted.ratios(
        "whole job, ours / best",
        "1.05 at most",
        1,
        Row::WholeJob,
        |_| true,
    );
    wanted.cost_by_kind("0.85 to 1.15");
    wanted.cost_by_side("0.75 to 1.25");
}

fn main() {
    let mut agreement = agree::Agreement::new(&rows::PROGRAMS);
    agreement.check(&SIDES, 20_000);
    println!(
        "{} calls: the four programs agree on every sum, word and refusal.",
        agreement.calls
    );
    println!("Refused, by number: {}.\n", agreement.refused());
    table::head(&["straightforward", "best", "blocks", "limit"]);
    let cells = calls::measure(&rows::ROWS, &SIDES, rows::times, table::line);
    table::flatness(&cells);
    show_wanted(&cells);
}
