//! The calls of the library beside the Rust implementation of `tests`: medians of passes in which both sides, their digests,
//! memset and memcpy run in turn, on the same buffers. Before a case is timed, either side makes its call three times over on a
//! copy of the state, and every result and byte must be alike. A call that judges several frames may make their digests four at
//! once; such calls have a table of their own, where Rust in four lanes stands beside them too: `calls several` prints it alone.
//! Then the search for the last committed slot by itself, `calls searches`, and a card that comes back after 1,000 rounds: `calls
//! comes-back`. Then what is counted, `calls counts`: terms without faults, and how long an entry waits where cards are dead.

mod book;
mod card;
mod case;
mod comes_back;
mod dead_leaders;
mod fault_free;
mod placed;
mod recipes;
mod searches;
mod side;
mod waits;

use case::{cases, Call, Case};
use side::Outcome;
use std::env::args;
use std::io::{stderr, IsTerminal};
use std::process::ExitCode;

const TERMS: [u32; 2] = [64, 4096];
const PASSES: usize = 101;
/// About how long one batch of calls takes, in seconds.
const BATCH: f64 = 0.0003;

/// The calls of a case give the number that it names, and agree on both sides; or the program ends. What they give.
fn compare(case: &Case) -> Outcome {
    side::compare_digests(case);
    let (mut left, mut right) = (case.clone(), case.clone());
    let mut calls = |times| {
        let ours = side::ours(&mut left, times).1;
        let rust = side::rust(&mut right, times).1;
        assert_eq!(ours, rust, "{}: ours, Rust's", case.name);
        assert!(left.lent == right.lent, "{}: buffers differ", case.name);
        ours
    };
    let first = calls(0);
    assert_eq!(first, calls(1), "{}: repeated", case.name);
    let (number, frames) = match first {
        Outcome::Answer(a) => (a.number, usize::from(a.frames)),
        Outcome::Marked(m) => (m.number, 0),
        Outcome::Part(p) => (p.number, 0),
        Outcome::Fetched(f) => (f.number, f.count),
    };
    let expected = (case.number, case.frames_out);
    assert_eq!((number, frames), expected, "{}", case.name);
    first
}

/// Seconds, each from many passes.
#[derive(Default)]
struct Times {
    ours: Vec<f64>,
    rust: Vec<f64>,
    our_digests: Vec<f64>,
    rust_digests: Vec<f64>,
    /// Where a call judges several frames: it less its digests, with these made in four lanes.
    rust_in_lanes: Vec<f64>,
    /// Single calls, each less its digests made right after it.
    our_rest: Vec<f64>,
    rust_rest: Vec<f64>,
    memset: Vec<f64>,
    memcpy: Vec<f64>,
    /// For a set of blames: the same frames one by one.
    our_each: Vec<f64>,
    rust_each: Vec<f64>,
}

fn pass(case: &mut Case, batch: usize, expected: Outcome, times: &mut Times) {
    let call = |side: fn(&mut Case, usize) -> (f64, Outcome), case: &mut Case, batch| {
        let (seconds, outcome) = side(case, batch);
        assert_eq!(outcome, expected, "{}: in a timed batch", case.name);
        seconds
    };
    times.ours.push(call(side::ours, case, batch));
    let rust = call(side::rust, case, batch);
    times.rust.push(rust);
    if matches!(case.call, Call::Blames) {
        case.call = Call::BlameEach;
        times.our_each.push(call(side::ours, case, batch));
        times.rust_each.push(call(side::rust, case, batch));
        case.call = Call::Blames;
    }
    if case.digests > 0 {
        times.our_digests.push(side::our_digests(case, batch));
        let digests = side::rust_digests(case, batch);
        times.rust_digests.push(digests);
        if case.judges_several() {
            let in_lanes = side::rust_digests_in_lanes(case, batch);
            times.rust_in_lanes.push(rust - digests + in_lanes);
        }
    }
    if !case.has_rest() {
        return;
    }
    for _ in 0..batch {
        let ours = call(side::ours, case, 1) - side::our_digests(case, 1);
        let rust = call(side::rust, case, 1) - side::rust_digests(case, 1);
        times.our_rest.push(ours);
        times.rust_rest.push(rust);
    }
    if case.zeroed.is_some() {
        times.memcpy.push(side::memcpy(case, batch));
        times.memset.push(side::memset(case, batch));
    }
}

fn measure(case: &mut Case) -> Times {
    let expected = compare(case);
    let once = side::ours(case, 1).0;
    let batch = ((BATCH / once) as usize).clamp(1, 100_000);
    let mut times = Times::default();
    for _ in 0..PASSES {
        pass(case, batch, expected, &mut times);
    }
    times
}

/// The median; none where nothing was measured.
fn median(of: &[f64]) -> Option<f64> {
    let mut of = of.to_vec();
    of.sort_by(f64::total_cmp);
    of.get(of.len() / 2).copied()
}

fn time(seconds: Option<f64>) -> String {
    let Some(ns) = seconds.map(|s| s * 1e9) else {
        return String::new();
    };
    match ns.abs() {
        size if size < 100.0 => format!("{ns:.1} ns"),
        size if size < 1e3 => format!("{ns:.0} ns"),
        size if size < 1e6 => format!("{:.2} us", ns / 1e3),
        _ => format!("{:.2} ms", ns / 1e6),
    }
}

fn ratio(above: Option<f64>, below: Option<f64>) -> String {
    match (above, below) {
        (Some(above), Some(below)) => format!("{:.2}", above / below),
        _ => String::new(),
    }
}

fn row(case: &Case, times: &Times) -> Vec<String> {
    let (ours, rust) = (median(&times.ours), median(&times.rust));
    let (our_digests, rust_digests) = (median(&times.our_digests), median(&times.rust_digests));
    let (our_rest, rust_rest) = (median(&times.our_rest), median(&times.rust_rest));
    let (memset, memcpy) = (median(&times.memset), median(&times.memcpy));
    let both = memset.zip(memcpy).map(|(a, b)| a + b);
    vec![
        case.name.into(),
        case.record.term.to_string(),
        time(ours),
        ratio(rust, ours),
        time(our_digests),
        ratio(rust_digests, our_digests),
        time(our_rest),
        ratio(rust_rest, our_rest),
        time(memset),
        ratio(our_rest, memset),
        ratio(our_rest, both),
    ]
}

/// A table with its columns in line.
fn print(rows: &[Vec<String>]) {
    let width = |column: usize| rows.iter().map(|row| row[column].len()).max();
    for (number, row) in rows.iter().enumerate() {
        let cells = row.iter().enumerate().map(|(column, cell)| {
            let width = width(column).unwrap_or(0);
            match column {
                0 => format!(" {cell:width$} |"),
                _ => format!(" {cell:>width$} |"),
            }
        });
        println!("|{}", cells.collect::<String>());
        if number == 0 {
            println!("|{}", "---|".repeat(row.len()));
        }
    }
}

fn head(cells: &str) -> Vec<String> {
    cells.split(", ").map(String::from).collect()
}

/// Shows what is under way on a terminal, in place of what was shown before.
fn progress(what: &str) {
    if stderr().is_terminal() {
        eprint!("\r{:60}\r{what} ", "");
    }
}

/// The cases that are chosen, with their times.
fn measured(chosen: impl Fn(&Case) -> bool) -> Vec<(Case, Times)> {
    let mut measured = Vec::new();
    for mut case in TERMS.into_iter().flat_map(cases).filter(chosen) {
        progress(&format!("{}, T = {}", case.name, case.record.term));
        let times = measure(&mut case);
        measured.push((case, times));
    }
    progress("");
    measured
}

fn calls(measured: &[(Case, Times)]) {
    let mut rows = vec![head(
        "call, T, ours, beside Rust, its digests, beside Rust, the rest, beside Rust, memset, rest / memset, rest / memset and memcpy",
    )];
    rows.extend(measured.iter().map(|(case, times)| row(case, times)));
    print(&rows);
    one_by_one(measured);
    equivocations(measured);
}

/// How long as many calls of blame take, over one of blames in the same passes, on either side.
fn one_by_one(measured: &[(Case, Times)]) {
    println!();
    let sets = measured
        .iter()
        .filter(|(case, _)| matches!(case.call, Call::Blames));
    for (case, times) in sets {
        let ours = ratio(median(&times.our_each), median(&times.ours));
        let rust = ratio(median(&times.rust_each), median(&times.rust));
        let (name, term) = (case.name, case.record.term);
        println!("{name}, T = {term}: one by one over the set: ours {ours}, Rust {rust}");
    }
}

/// What every row of equivocation stays within; the aims decide nothing.
fn equivocations(measured: &[(Case, Times)]) {
    let each = |figure: fn(&Times) -> Option<f64>| {
        let rows = measured.iter();
        let rows = rows.filter(|(case, _)| matches!(case.call, Call::Equivocation));
        rows.filter_map(move |(_, times)| figure(times))
    };
    let beside = |times: &Times| Some(median(&times.rust)? / median(&times.ours)?);
    let most = each(|times| median(&times.our_rest)).max_by(f64::total_cmp);
    let least = each(beside).min_by(f64::total_cmp);
    println!(
        "every equivocation: at most {} beyond its two digests (aim: 100 ns), at least {} beside Rust (aim: 1.00)",
        time(most),
        ratio(least, Some(1.0))
    );
}

fn several(measured: &[(Case, Times)]) {
    println!("Several frames. Over ours: a time over ours, above 1 ours is faster. Rust makes its digests one at a time. Its rest and its");
    println!("digests in four lanes are composed: its call less its digests, and these in four lanes by themselves, all in the same passes.");
    println!("Aims over ours, which decide nothing: Rust 1.80 for blames of 8 and 15 and a branch of T, 1.30 for blames of 3; in lanes 0.90.");
    let mut rows = vec![head(
        "call, T, ours, Rust, over ours, Rust's rest and its digests in four lanes, over ours",
    )];
    for (case, times) in measured.iter().filter(|(case, _)| case.judges_several()) {
        let (ours, rust) = (median(&times.ours), median(&times.rust));
        let in_lanes = median(&times.rust_in_lanes);
        rows.push(vec![
            case.name.into(),
            case.record.term.to_string(),
            time(ours),
            time(rust),
            ratio(rust, ours),
            time(in_lanes),
            ratio(in_lanes, ours),
        ]);
    }
    print(&rows);
}

fn searches() {
    let f = searches::F;
    println!("The search for the last committed slot, from round T - f down, f = {f}. Over ours: a time over ours, above 1 ours is faster.");
    print(&searches::table());
}

fn comes_back() {
    let (rounds, term) = (comes_back::ROUNDS, comes_back::TERM);
    println!("A card that comes back after {rounds} rounds, T = {term}. Exchanges are the fetches answered with frames and the questions for blames.");
    println!("Sets: of blames handed in, a call each. Digests: one for each frame handed in or emitted. Fetching: all fetches, where they come");
    println!("first. All: fetches and other calls.");
    print(&comes_back::table());
}

fn fault_free() -> Vec<Vec<String>> {
    let mut rows = vec![head("n, T, committed, rounds, emitted, sent, relayed")];
    for (term, f) in TERMS
        .into_iter()
        .flat_map(|term| (1..=7).map(move |f| (term, f)))
    {
        let counts = fault_free::run(f, term);
        let each = |count: usize| format!("{:.3}", count as f64 / f64::from(counts.committed));
        rows.push(vec![
            (2 * f + 1).to_string(),
            term.to_string(),
            counts.committed.to_string(),
            each(term as usize),
            each(counts.emitted),
            each(counts.sent),
            each(counts.relayed),
        ]);
    }
    rows
}

fn counts() {
    println!("A term without faults. For each committed block: rounds, frames emitted, copies of them sent, and copies relayed.");
    print(&fault_free());
    let tables = waits::tables();
    println!("\nAn entry of round r, some cards being dead: rounds after r / timeouts until every living card has committed it;");
    println!("before F-2: until every living card has a block of round r + f or later, for which commit waited then.");
    println!("This library commits by {}.", tables.rule);
    print(&tables.places);
    println!("\nThe same where round r + f is the last of the term and its leader dead.");
    print(&tables.ends);
}

fn all() {
    eprintln!("calls, {PASSES} passes");
    let measured = measured(|_| true);
    println!("Beside Rust: its time over ours, above 1 ours is faster. Its digests: as many as it makes, one by one. The rest: a call of one");
    println!("frame or two, or of none, less its digests.");
    calls(&measured);
    println!();
    several(&measured);
    println!();
    searches();
    println!();
    comes_back();
    println!();
    counts();
}

fn main() -> ExitCode {
    let arguments: Vec<String> = args().skip(1).collect();
    let words: Vec<&str> = arguments.iter().map(String::as_str).collect();
    match words[..] {
        [] => all(),
        ["several"] => several(&measured(Case::judges_several)),
        ["searches"] => searches(),
        ["comes-back"] => comes_back(),
        ["counts"] => counts(),
        _ => {
            eprintln!("calls: unknown: {}", words.join(" "));
            eprintln!("usage: calls [several | searches | comes-back | counts]");
            return ExitCode::from(2);
        }
    }
    ExitCode::SUCCESS
}
