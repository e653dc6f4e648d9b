//! Compares the proved search for flags with a straightforward one: same questions, same machine, same run.

mod agree;
#[allow(dead_code)]
#[path = "../data.rs"]
mod data;
#[allow(dead_code)]
#[path = "../job.rs"]
mod job;
mod plain;
#[path = "../../bindings/ramp_board.rs"]
mod ramp_board;
mod rows;
mod table;
#[path = "../timing.rs"]
mod timing;

use data::Draws;

fn check_agreement() {
    let mut agreement = agree::Agreement::new();
    for row in rows::ROWS {
        agreement.timed(row);
    }
    let mut draws = Draws::new(2026);
    for _ in 0..50_000 {
        agreement.drawn(&mut draws);
    }
    println!(
        "{} questions about flags: ours and the straightforward program agree on every answer and refusal.",
        agreement.questions
    );
    println!(
        "Refused with 16: {}, with 19: {}.\n",
        agreement.refused[16], agreement.refused[19]
    );
}

fn main() {
    check_agreement();
    table::head();
    let cells = rows::measure(table::line);
    table::targets(&cells);
}
