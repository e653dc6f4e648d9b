//! Compares the proved sums in floats with hand-written ones, and with the proved whole numbers: same jobs, same machine, same run.

#[path = "../agree.rs"]
mod agree;
#[allow(dead_code)]
#[path = "../best.rs"]
mod best;
#[path = "best.rs"]
mod best_in_floats;
#[path = "../board.rs"]
mod board;
#[allow(dead_code)]
#[path = "../calls.rs"]
mod calls;
#[path = "../data.rs"]
mod data;
mod entries;
#[path = "../job.rs"]
mod job;
mod ours;
#[path = "../ours.rs"]
mod ours_in_whole_numbers;
#[path = "../plain.rs"]
mod plain;
#[path = "plain.rs"]
mod plain_in_floats;
#[path = "../../bindings/ramp_board.rs"]
mod ramp_board;
mod rows;
#[path = "../settings.rs"]
mod settings;
#[allow(dead_code)]
#[path = "../table.rs"]
mod table;
#[path = "../timing.rs"]
mod timing;

use calls::{Cell, Row};

const SIDES: [usize; 4] = [32, 128, 512, 1024];

fn show_wanted(cells: &[Cell]) {
    let wanted = table::Wanted::of(cells);
    for (to, other, most) in [
        (0, "straightforward", "0.55 at most"),
        (1, "best", "1.05 at most"),
        (2, "ours in whole numbers", "2.0 at most"),
    ] {
        wanted.ratios(
            &format!("Feed of a whole ramp, ours / {other}"),
            most,
            to,
            Row::FeedWhole,
            |_| true,
        );
    }
    for (binned, what) in [(false, "Read out, unbinned"), (true, "Read out, binned")] {
        wanted.ratios(
            &format!("{what}, ours / straightforward"),
            "0.5 at most",
            0,
            Row::ReadOut,
            |c| c.binned == binned,
        );
    }
    wanted.cost_by_kind("0.85 to 1.15");
}

fn main() {
    let mut agreement = agree::Agreement::new(&rows::AGREEING);
    agreement.check(&SIDES, 20_000);
    println!(
        "{} calls with floats: ours, both programs and ours in whole numbers agree on every sum, word and refusal.",
        agreement.calls
    );
    println!("Refused, by number: {}.\n", agreement.refused());
    table::head(&["straightforward", "best", "ours in whole numbers"]);
    let cells = calls::measure(&rows::ROWS, &SIDES, rows::times, table::line);
    table::flatness(&cells);
    show_wanted(&cells);
}
