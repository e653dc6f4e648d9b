//! Plays a replay script (docs/REPLAY.md) through the safe wrapper, and prints what `replay` prints. The script is taken to be well-formed.

#[path = "../ramp_board.rs"]
mod ramp_board;

use std::fmt::{Debug, Display};
use std::io::{self, BufWriter, Read, Write};
use std::mem;

use ramp_board::{count_flags, nearest_flag, read_word, Board, Refusal, WordRead};

/// Before the first Open a board has sides 0 and the default settings, waiting and in force.
const UNOPENED: [i64; ramp_board::WORDS] = [
    0, 0, 0, 0, 0, // sides, binned, running, fed
    -4, -3, -2, -1, 0, 1, 2, 3, 4, 13_087, 2, 9, // waiting
    -4, -3, -2, -1, 0, 1, 2, 3, 4, 13_087, 2, 9, // in force
];

fn main() -> io::Result<()> {
    let mut script = vec![];
    io::stdin().read_to_end(&mut script)?;
    let mut player = Player {
        board: Board::from_words(UNOPENED),
        sums: vec![],
        spare: vec![],
        floats: vec![],
        spare_floats: vec![],
        words: vec![],
        out: BufWriter::new(io::stdout().lock()),
    };
    for line in script.split(|&byte| byte == b'\n') {
        if !line.is_empty() && line[0] != b'#' {
            player.line(str::from_utf8(line).expect("a command is text"))?;
        }
    }
    player.out.flush()
}

/// One board, the sums that are lent and the spare ones, the same of floats, and the words.
struct Player<W> {
    board: Board,
    sums: Vec<i32>,
    spare: Vec<i32>,
    floats: Vec<f64>,
    spare_floats: Vec<f64>,
    words: Vec<u16>,
    out: W,
}

impl<W: Write> Player<W> {
    fn line(&mut self, line: &str) -> io::Result<()> {
        let is_number = |c: char| c == '-' || c.is_ascii_digit();
        let (command, numbers) = line.split_at(line.find(is_number).unwrap_or(line.len()));
        let numbers = numbers
            .split_terminator(' ')
            .map(|n| n.parse().expect(line));
        self.play(command.trim_end(), &numbers.collect::<Vec<i64>>())
    }

    fn play(&mut self, command: &str, numbers: &[i64]) -> io::Result<()> {
        match (command, numbers) {
            ("open", &[width, height, binned]) => {
                let opened = Board::open(to(width), to(height), binned == 1);
                let answer = opened.map(|board| self.board = board);
                self.show(answer)
            }
            ("board", words) => {
                self.board = Board::from_words(words.try_into().expect("29 words"));
                self.show(Ok(()))
            }
            ("update", [_, bytes @ ..]) => {
                let answer = self.board.update(&all_to::<u8>(bytes));
                self.show(answer)
            }
            ("start", []) => {
                let answer = self.board.start();
                self.show(answer)
            }
            ("feed", [_, readings @ ..]) => self.feed(&all_to::<u16>(readings)),
            ("fill", &[count, reading]) => self.feed(&vec![to(reading); to(count)]),
            ("readout", &[count]) => {
                let mut frame = vec![0; to(count)];
                let answer = self.board.read_out(&self.sums, &mut frame);
                self.read_out(answer, frame)
            }
            ("feed floats", [_, readings @ ..]) => self.feed_floats(&all_to::<u16>(readings)),
            ("fill floats", &[count, reading]) => self.feed_floats(&vec![to(reading); to(count)]),
            ("readout floats", &[count]) => {
                let mut frame = vec![0; to(count)];
                let answer = self.board.read_out_floats(&self.floats, &mut frame);
                self.read_out(answer, frame)
            }
            ("drop", []) => {
                let answer = self.board.drop_ramp();
                self.show(answer)
            }
            ("covered", []) => {
                let covered = self.board.covered();
                self.say(covered.map(|yes| if yes { "covered" } else { "uncovered" }))
            }
            ("word", &[word, truncation]) => {
                self.say(read_word(to(truncation), to(word)).map(meaning))
            }
            ("sums", &[length, entry]) => {
                self.sums = vec![to(entry); to(length)];
                self.say(Ok("taken"))
            }
            ("poke", &[index, entry]) => {
                let at = self.sums.get_mut(to::<usize>(index));
                let poked = at.map(|old| *old = to(entry));
                self.say(Ok(poked.map_or("outside", |()| "taken")))
            }
            ("swap", []) => {
                mem::swap(&mut self.sums, &mut self.spare);
                self.say(Ok("taken"))
            }
            ("print sums", &[start, count]) => self.print_sums(to(start), to(count)),
            ("floats", &[length, high, low]) => {
                self.floats = vec![float_of(high, low); to(length)];
                self.say(Ok("taken"))
            }
            ("poke floats", &[index, high, low]) => {
                let at = self.floats.get_mut(to::<usize>(index));
                let poked = at.map(|old| *old = float_of(high, low));
                self.say(Ok(poked.map_or("outside", |()| "taken")))
            }
            ("swap floats", []) => {
                mem::swap(&mut self.floats, &mut self.spare_floats);
                self.say(Ok("taken"))
            }
            ("print floats", &[start, count]) => self.print_floats(to(start), to(count)),
            ("words", [_, words @ ..]) => {
                self.words = all_to(words);
                self.say(Ok("taken"))
            }
            ("nearest", &[width, height, row, column]) => {
                let (width, height) = (to(width), to(height));
                let flag = nearest_flag(&self.words, width, height, to(row), to(column));
                self.say(flag.map(|flag| match flag {
                    Some((row, column)) => format!("flag {row} {column}"),
                    None => "no flag".to_string(),
                }))
            }
            ("count", &[width, height, row, column, last_row, last_column]) => {
                let (first, last) = ((to(row), to(column)), (to(last_row), to(last_column)));
                let flags = count_flags(&self.words, to(width), to(height), first, last);
                self.say(flags.map(|flags| format!("flags {flags}")))
            }
            _ => panic!("no command: {command} {numbers:?}"),
        }
    }

    fn feed(&mut self, readings: &[u16]) -> io::Result<()> {
        let answer = self.board.feed(readings, &mut self.sums);
        self.show(answer)
    }

    fn feed_floats(&mut self, readings: &[u16]) -> io::Result<()> {
        let answer = self.board.feed_floats(readings, &mut self.floats);
        self.show(answer)
    }

    /// A taken Read out leaves its frame as the words.
    fn read_out(&mut self, answer: Result<(), Refusal>, frame: Vec<u16>) -> io::Result<()> {
        self.show(answer)?;
        if answer.is_ok() {
            self.words = frame;
            print_tens(&mut self.out, &self.words)?;
        }
        Ok(())
    }

    fn print_sums(&mut self, start: usize, count: usize) -> io::Result<()> {
        match self.sums.get(start..start + count) {
            Some(sums) => {
                writeln!(self.out, "taken")?;
                print_tens(&mut self.out, sums)
            }
            None => writeln!(self.out, "outside"),
        }
    }

    fn print_floats(&mut self, start: usize, count: usize) -> io::Result<()> {
        match self.floats.get(start..start + count) {
            Some(floats) => {
                writeln!(self.out, "taken")?;
                let numbers: Vec<u64> = floats.iter().flat_map(numbers_of).collect();
                print_tens(&mut self.out, &numbers)
            }
            None => writeln!(self.out, "outside"),
        }
    }

    /// What a call answers, or its refusal.
    fn say(&mut self, answer: Result<impl Display, Refusal>) -> io::Result<()> {
        match answer {
            Ok(answer) => writeln!(self.out, "{answer}"),
            Err(Refusal { number, place }) => writeln!(self.out, "refused {number} {place}"),
        }
    }

    /// The answer of a call on the board, and the board that it leaves.
    fn show(&mut self, answer: Result<(), Refusal>) -> io::Result<()> {
        self.say(answer.map(|()| "taken"))?;
        writeln!(self.out, "board {}", spaced(self.board.words()))
    }
}

fn meaning(read: WordRead) -> String {
    match read {
        WordRead::Ordinary { low, high } => format!("{low}..{high}"),
        WordRead::Saturated(sample) => format!("sat {sample}"),
        WordRead::Negative => "neg".to_string(),
        WordRead::Unassigned => "none".to_string(),
    }
}

/// The float of a pattern in two numbers.
fn float_of(high: i64, low: i64) -> f64 {
    f64::from_bits(u64::from(to::<u32>(high)) << 32 | u64::from(to::<u32>(low)))
}

/// The pattern of a float in two numbers; all that is no number has one.
fn numbers_of(float: &f64) -> [u64; 2] {
    match float.to_bits() {
        _ if float.is_nan() => [2_146_959_360, 0],
        pattern => [pattern >> 32, pattern & u64::from(u32::MAX)],
    }
}

/// A number of a script, which is in the range of its type.
fn to<T: TryFrom<i64, Error: Debug>>(number: i64) -> T {
    T::try_from(number).expect("a number in its range")
}

fn all_to<T: TryFrom<i64, Error: Debug>>(numbers: &[i64]) -> Vec<T> {
    numbers.iter().copied().map(to).collect()
}

fn spaced<T: ToString>(numbers: &[T]) -> String {
    let texts: Vec<String> = numbers.iter().map(T::to_string).collect();
    texts.join(" ")
}

fn print_tens<T: ToString>(out: &mut impl Write, numbers: &[T]) -> io::Result<()> {
    for line in numbers.chunks(10) {
        writeln!(out, "{}", spaced(line))?;
    }
    Ok(())
}
