//! Compares the library with the model over long mixed lists of calls.
//!
//!     mixed-lists                     the fixed lists, with the coverage table
//!     mixed-lists forever             fresh lists without end, until one fails
//!     mixed-lists seed NUMBER         the list of one seed
//!     mixed-lists emit IN OUT [SEED [CALLS]]
//!                                     writes a list and its results for a program to read

use std::env;
use std::io::Write;
use std::process::ExitCode;
use std::time::{Duration, Instant, SystemTime, UNIX_EPOCH};

use beside::coverage::Coverage;
use beside::crash;
use beside::drive::{run, shrink, Failure, Passed};
use beside::emit::emit;
use beside::library::{description, under_test, Library};
use beside::lists::Sizes;

/// The fixed lists end with the first that reaches so many calls.
const CALLS: u64 = 1_500_000;

fn main() -> ExitCode {
    let arguments: Vec<String> = env::args().skip(1).collect();
    let words: Vec<&str> = arguments.iter().map(String::as_str).collect();
    let good = match words[..] {
        [] => fixed(),
        ["forever"] => forever(),
        ["seed", seed] => one(seed),
        ["emit", input, output] => write_list(input, output, "1", "2000"),
        ["emit", input, output, seed] => write_list(input, output, seed, "2000"),
        ["emit", input, output, seed, calls] => write_list(input, output, seed, calls),
        _ => {
            eprintln!("mixed-lists [forever | seed NUMBER | emit IN OUT [SEED [CALLS]]]");
            false
        }
    };
    if good {
        ExitCode::SUCCESS
    } else {
        ExitCode::FAILURE
    }
}

/// Counts over many lists.
struct Tally {
    start: Instant,
    told: Instant,
    calls: u64,
    checked: u64,
    strict: u64,
    passed: u64,
    failed: u64,
}

impl Tally {
    fn new() -> Tally {
        Tally {
            start: Instant::now(),
            told: Instant::now(),
            calls: 0,
            checked: 0,
            strict: 0,
            passed: 0,
            failed: 0,
        }
    }

    fn add(&mut self, passed: &Passed) {
        self.calls += passed.calls;
        self.checked += passed.checked;
        self.strict += u64::from(passed.strict);
        self.passed += 1;
    }

    /// A line of progress every few seconds.
    fn progress(&mut self, seed: u64) {
        if self.told.elapsed() >= Duration::from_secs(3) {
            self.told = Instant::now();
            println!("{}, seed {seed}", self.line());
            let _ = std::io::stdout().flush();
        }
    }

    fn line(&self) -> String {
        let seconds = self.start.elapsed().as_secs_f64();
        let rate = self.calls as f64 / seconds;
        let lists = self.passed + self.failed;
        let (calls, checked) = (self.calls, self.checked);
        format!("{lists} lists, {calls} calls, {checked} with claims, {rate:.0} calls/s")
    }
}

fn fixed() -> bool {
    println!("library: {}", description());
    let library = under_test();
    crash::watch();
    let (mut tally, mut coverage) = (Tally::new(), Coverage::new());
    let mut seed = 0;
    while tally.calls < CALLS && tally.failed < 5 {
        seed += 1;
        crash::running(seed);
        match run(&*library, seed, Sizes::All, &mut coverage) {
            Ok(passed) => tally.add(&passed),
            Err(failure) => {
                tally.failed += 1;
                tell(&*library, seed, &failure);
            }
        }
        tally.progress(seed);
    }
    print!("{}", coverage.table());
    let gaps = coverage.gaps();
    for (group, row) in &gaps {
        println!("never reached: {group}: {row}");
    }
    println!(
        "{}, {:.1} s",
        tally.line(),
        tally.start.elapsed().as_secs_f64()
    );
    tally.failed += u64::from(!gaps.is_empty());
    println!("premises kept to the end in {} lists", tally.strict);
    println!("{} passed, {} failed", tally.passed, tally.failed);
    tally.failed == 0
}

fn forever() -> bool {
    println!("library: {}", description());
    let library = under_test();
    crash::watch();
    let (mut tally, mut coverage) = (Tally::new(), Coverage::new());
    let now = SystemTime::now().duration_since(UNIX_EPOCH);
    let mut seed = now.map_or(1, |now| now.as_nanos() as u64);
    loop {
        seed = seed.wrapping_add(1);
        crash::running(seed);
        match run(&*library, seed, Sizes::All, &mut coverage) {
            Ok(passed) => tally.add(&passed),
            Err(failure) => {
                tell(&*library, seed, &failure);
                return false;
            }
        }
        tally.progress(seed);
    }
}

fn one(seed: &str) -> bool {
    let Ok(seed) = seed.parse() else {
        eprintln!("the seed is a number");
        return false;
    };
    let library = under_test();
    crash::watch();
    crash::running(seed);
    match run(&*library, seed, Sizes::All, &mut Coverage::new()) {
        Ok(passed) => println!("{} calls passed", passed.calls),
        Err(failure) => {
            tell(&*library, seed, &failure);
            return false;
        }
    }
    true
}

/// Writes a list for a program to read and what it has to print.
fn write_list(input: &str, output: &str, seed: &str, calls: &str) -> bool {
    let (Ok(seed), Ok(calls)) = (seed.parse(), calls.parse()) else {
        eprintln!("seed and calls are numbers");
        return false;
    };
    let mut coverage = Coverage::new();
    let emitted = emit(seed, calls, &mut coverage);
    for (path, text) in [(input, &emitted.input), (output, &emitted.output)] {
        if let Err(error) = std::fs::write(path, text) {
            eprintln!("{path}: {error}");
            return false;
        }
    }
    let (gaps, rows) = (coverage.gaps(), coverage.rows().len());
    let reached = rows - gaps.len();
    let calls = emitted.calls;
    println!("{calls} calls, {reached} of {rows} rows reached, all but:");
    for (group, row) in gaps {
        println!("{group}: {row}");
    }
    true
}

/// Prints a failing list, shrunk.
fn tell(library: &dyn Library, seed: u64, failure: &Failure) {
    println!(
        "seed {seed} failed after {} steps",
        failure.list.steps.len()
    );
    let short = shrink(library, failure);
    println!(
        "shrunk to {} steps, of which the last fails:",
        short.list.steps.len()
    );
    print!("{}", short.list);
    println!("{}", short.message);
}
