//! Lists for a program that reads calls and prints what they came to.
//!
//! The input is lines of words with one space between. Numbers are decimal, at most 32 bits.
//! Bytes are one word: `-` for none, else pieces, each either two lower-case hex digits for one
//! byte or `xN.` and two digits for N bytes of that value.
//!
//! There are cards 0 to 4, each with a record, a log of 4,608 bytes and 9 masks, and one out
//! buffer of 6,144 bytes. LOG, MASKS and OUT say how many of them, from the start, a call is lent.
//! An entry has at most 512 bytes, the frames of a call at most 8,192, other bytes at most 512.
//! RECORD is ten numbers: own number, f, wait, T, R, ticks left, tip round, tip height, committed
//! round, committed height; then the rotation, 15 bytes; then the marks, a number. ROTATION has any
//! number of bytes up to 512.
//!
//! ```text
//!     n                                  a new list: all records, logs and masks become zero
//!     w CARD RECORD                      the card gets this record; its log and masks become zero
//!     s CARD ROUND BYTES                 512 bytes for a slot of the card's log
//!     m CARD ROUND NUMBER                a mask of the card
//!     g RECORD                           the next call gets this record instead of the card's
//!     o CARD OWN F WAIT T ROTATION LOG MASKS OUT ENTRY    open
//!     b CARD LOG MASKS OUT ENTRY FRAMES                   branch
//!     v CARD LOG MASKS OUT ENTRY FRAME                    blame
//!     a CARD LOG MASKS OUT ENTRY FRAMES                   blames
//!     t CARD LOG MASKS OUT ENTRY                          tick
//!     e CARD FRAMES                                       equivocation
//!     q CARD LOG HEIGHT                                   read
//!     f CARD LOG OUT HEIGHT                               fetch
//!     h BYTES                                             digest
//! ```
//!
//! Before each call the lent part of the out buffer is filled with bytes of 165. If open, branch,
//! blame, blames, tick or equivocation is taken, the record that it gives becomes the card's; else the
//! card keeps its own.
//!
//! The output has a line for each call, from `o` to `h`. The rotation of its RECORD is 30 lower-case
//! hex digits. DIGEST is in lower-case hex too; it is that of the lent log, then the lent masks with
//! two bytes each, the higher first, then the lent out buffer.
//!
//! ```text
//!     o b v a t  NUMBER PLACE FRAMES LEADER RECORD DIGEST
//!     e          NUMBER PLACE RECORD
//!     q          NUMBER START LENGTH DIGEST
//!     f          NUMBER COUNT DIGEST
//!     h          DIGEST, of the bytes
//! ```

use std::fmt::Write;

use crate::call::{Call, State, Step, What};
use crate::coverage::{Coverage, Row, CATCHING_UP, OTHER_MARKS};
use crate::fours;
use crate::frame::SIZE;
use crate::library::Model;
use crate::lists::{Maker, Sizes};
use crate::model::{slots, Record};
use crate::runner::{Outcome, Runner};
use crate::sha256;

const CARDS: usize = 5;
const LOG: usize = 4_608;
const MASKS: usize = 9;
const OUT: usize = 6_144;
const BYTES: usize = 512;
const FRAMES: usize = 8_192;
const FILL: u8 = 165;

/// What a program reads, and what it then has to print.
#[derive(Default)]
pub struct Emitted {
    pub input: String,
    pub output: String,
    pub calls: u64,
}

/// How many seeds are looked at for lists that reach much.
const SEEDS: u64 = 6_000;

/// Lists of small cards from a seed on, until there are so many calls: each time the one that
/// reaches most that is new for its length, in the end any.
pub fn emit(first_seed: u64, calls: u64, coverage: &mut Coverage) -> Emitted {
    let mut emitted = Emitted::default();
    let mut trials: Vec<Trial> = (first_seed..first_seed + SEEDS).map(Trial::new).collect();
    let mut next_seed = first_seed + SEEDS;
    while emitted.calls < calls {
        let reached = counts(coverage);
        let best = (0..trials.len()).max_by_key(|&index| trials[index].worth(&reached));
        let seed = best.map_or(next_seed, |index| trials.swap_remove(index).seed);
        next_seed += u64::from(best.is_none());
        emitted.list(seed, calls, coverage);
    }
    emitted
}

/// What the list of a seed reaches.
struct Trial {
    seed: u64,
    /// Bytes of the input; a call counts as 256 more.
    length: usize,
    /// The rows that it reaches, each by its index, and how often.
    counts: Vec<(usize, u64)>,
}

/// How often each row was reached.
fn counts(coverage: &Coverage) -> Vec<u64> {
    let rows = coverage.rows().iter();
    rows.map(|row| coverage.count(row)).collect()
}

impl Trial {
    fn new(seed: u64) -> Trial {
        let (mut emitted, mut coverage) = (Emitted::default(), Coverage::new());
        emitted.list(seed, u64::MAX, &mut coverage);
        // The program that reads the list makes no searches, and no calls on copies; groups of four
        // are left to the longer lists.
        let on_copies = |row: &Row| row.0.starts_with(CATCHING_UP) || row.0 == OTHER_MARKS;
        let made = |row: &Row| !row.0.ends_with("search") && !on_copies(row) && !fours::is_row(row);
        let counts = counts(&coverage).into_iter().enumerate();
        let reached = counts.filter(|&(row, count)| count > 0 && made(&coverage.rows()[row]));
        Trial {
            seed,
            length: emitted.input.len() + 256 * emitted.calls as usize,
            counts: reached.collect(),
        }
    }

    /// Points for each megabyte.
    fn worth(&self, reached: &[u64]) -> usize {
        let points = |&(row, count): &(usize, u64)| {
            let reached = reached[row];
            points(reached + count) - points(reached)
        };
        1_000_000 * self.counts.iter().map(points).sum::<usize>() / self.length
    }
}

/// Many for reaching a row at all, some for reaching it a few times more.
fn points(count: u64) -> usize {
    match count {
        0 => 0,
        _ => 40 + count.min(6) as usize,
    }
}

impl Emitted {
    fn list(&mut self, seed: u64, calls: u64, coverage: &mut Coverage) {
        let mut maker = Maker::new(seed, Sizes::Small);
        assert!(maker.head().cards <= CARDS);
        let mut runner = Runner::new(&Model, maker.head()).with_fill(FILL);
        coverage.list(maker.head());
        self.input += "n\n";
        while let Some(step) = maker.next(runner.sides()) {
            let outcome = runner.step(&step, coverage).expect("the model is itself");
            match &step {
                Step::Write(card, state) => self.state(*card, state),
                Step::Call(call) => {
                    self.call(call);
                    self.outcome(call, &outcome, &runner);
                    maker.learn(call, &outcome, runner.out(call.out_len));
                    self.calls += 1;
                }
            }
            if self.calls == calls {
                break;
            }
        }
    }

    fn line(&mut self, letter: char, words: &[String]) {
        self.input.push(letter);
        for word in words {
            self.input.push(' ');
            self.input += word;
        }
        self.input.push('\n');
    }

    fn state(&mut self, card: usize, state: &State) {
        self.line('w', &[card.to_string(), given(&state.record)]);
        for (slot, round) in slots(&state.log).iter().zip(1..) {
            if *slot != [0; SIZE] {
                self.line('s', &[card.to_string(), round.to_string(), bytes(slot)]);
            }
        }
        for (mask, round) in state.masks.iter().zip(1..) {
            if *mask != 0 {
                self.line(
                    'm',
                    &[card.to_string(), round.to_string(), mask.to_string()],
                );
            }
        }
    }

    fn call(&mut self, call: &Call) {
        check_sizes(call);
        if let (Some(record), false) = (&call.record, matches!(call.what, What::Digest(_))) {
            self.line('g', &[given(record)]);
        }
        let card = call.card.to_string();
        let (log, out) = (call.log_len.to_string(), call.out_len.to_string());
        let lent = format!("{log} {} {out} {}", call.masks_len, bytes(&call.entry));
        match &call.what {
            What::Open(s, rotation) => {
                let setup = format!("{} {} {} {}", s.own, s.f, s.wait, s.term);
                self.line('o', &[card, setup, bytes(rotation), lent]);
            }
            What::Branch(frames) => self.line('b', &[card, lent, bytes(frames)]),
            What::Blame(frame) => self.line('v', &[card, lent, bytes(frame)]),
            What::Blames(frames) => self.line('a', &[card, lent, bytes(frames)]),
            What::Tick => self.line('t', &[card, lent]),
            What::Equivocation(frames) => self.line('e', &[card, bytes(frames)]),
            What::Read(height) => self.line('q', &[card, log, height.to_string()]),
            What::Fetch(height) => self.line('f', &[card, log, out, height.to_string()]),
            What::Digest(of) => self.line('h', &[bytes(of)]),
        }
    }

    fn outcome(&mut self, call: &Call, outcome: &Outcome, runner: &Runner) {
        let (masks, out) = match call.what {
            What::Read(_) => (0, 0),
            What::Fetch(_) => (0, call.out_len),
            _ => (call.masks_len, call.out_len),
        };
        let side = &runner.sides()[call.card];
        let mut lent = side.log.part(call.log_len).to_vec();
        lent.extend(
            side.masks
                .part(masks)
                .iter()
                .flat_map(|mask| mask.to_be_bytes()),
        );
        lent.extend_from_slice(runner.out(out));
        let digest = hex(&sha256::digest(&lent));
        self.output += &match (outcome, &call.what) {
            (Outcome::Answer(a), _) => {
                let (number, place, frames, leader) = (a.number, a.place, a.frames, a.leader);
                let record = printed(&a.record);
                format!("{number} {place} {frames} {leader} {record} {digest}\n")
            }
            (Outcome::Marked(m), _) => format!("{} {} {}\n", m.number, m.place, printed(&m.record)),
            (Outcome::Part(p), _) => format!("{} {} {} {digest}\n", p.number, p.start, p.length),
            (Outcome::Fetched(f), _) => format!("{} {} {digest}\n", f.number, f.count),
            (_, What::Digest(of)) => format!("{}\n", hex(&sha256::digest(of))),
            _ => String::new(),
        };
    }
}

/// The sizes that the reading program may rely on.
fn check_sizes(call: &Call) {
    assert!(call.log_len <= LOG && call.masks_len <= MASKS && call.out_len <= OUT);
    assert!(call.entry.len() <= BYTES && call.handed().len() <= FRAMES);
    if let What::Digest(bytes) | What::Open(_, bytes) = &call.what {
        assert!(bytes.len() <= BYTES);
    }
}

/// A record for the program to read.
fn given(record: &Record) -> String {
    let (rotation, marks) = (bytes(&record.rotation), record.equivocators);
    format!("{} {rotation} {marks}", numbers(record))
}

/// A record as the program prints it.
fn printed(record: &Record) -> String {
    let (rotation, marks) = (hex(&record.rotation), record.equivocators);
    format!("{} {rotation} {marks}", numbers(record))
}

/// A record's ten numbers.
fn numbers(r: &Record) -> String {
    let mut words = format!("{} {} {} {}", r.own, r.f, r.wait, r.term);
    for number in [
        r.round,
        r.left,
        r.tip_round,
        r.tip_height,
        r.committed_round,
        r.committed_height,
    ] {
        write!(words, " {number}").expect("a string grows");
    }
    words
}

fn hex(bytes: &[u8]) -> String {
    bytes.iter().map(|byte| format!("{byte:02x}")).collect()
}

/// Bytes as one word, long runs of one value as their number and the value.
fn bytes(bytes: &[u8]) -> String {
    if bytes.is_empty() {
        return "-".into();
    }
    let mut word = String::new();
    for run in bytes.chunk_by(|a, b| a == b) {
        if run.len() > 3 {
            write!(word, "x{}.{:02x}", run.len(), run[0]).expect("a string grows");
        } else {
            word += &hex(run);
        }
    }
    word
}
