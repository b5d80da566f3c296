//! The search for the last committed slot by itself, beside two of the Rust implementation: its walk up from round 1, which
//! reads every slot allowed, and its own search downward. Before a case is timed, all three must find the same slot, and both
//! searches read as many.

use crate::book::book;
use crate::side::timed;
use crate::{head, median, ratio, time, BATCH, PASSES, TERMS};
use beside::ffi::{self, ApolloSearch};
use beside::model::{self, Search};
use std::hint::black_box;

pub const F: u8 = 2;
/// Runs by which the size of a batch is reckoned, for each of the three by itself.
const TRIAL: usize = 100;

struct Case {
    name: &'static str,
    term: u32,
    log: Vec<u8>,
    /// The highest round allowed when the term is over: T - f.
    limit: u32,
}

/// A term's book with blocks in the rounds that are not skipped.
fn case(name: &'static str, term: u32, skipped: impl Fn(u32) -> bool) -> Case {
    Case {
        name,
        term,
        log: book(F, term, skipped),
        limit: term - u32::from(F),
    }
}

fn cases(term: u32) -> [Case; 4] {
    let limit = term - u32::from(F);
    [
        case("no round skipped", term, |_| false),
        case("every second round skipped", term, |round| {
            round % 2 == limit % 2
        }),
        case("upper half skipped", term, |round| round > term / 2),
        case("none filled", term, |_| true),
    ]
}

impl Case {
    fn input(&self) -> (&[u8], u32) {
        (black_box(&self.log[..]), black_box(self.limit))
    }

    fn ours(&self, times: usize) -> (f64, Search) {
        let (seconds, search) = timed(times, || {
            let (log, limit) = self.input();
            // Safety: the pointer comes from a slice with its length.
            unsafe { ffi::apollo_search(log.as_ptr(), log.len(), limit) }
        });
        let ApolloSearch { round, slots_read } = search;
        (seconds, Search { round, slots_read })
    }

    fn up(&self, times: usize) -> (f64, u32) {
        timed(times, || {
            let (log, limit) = self.input();
            model::walk_up(log, limit)
        })
    }

    fn down(&self, times: usize) -> (f64, Search) {
        timed(times, || {
            let (log, limit) = self.input();
            model::search(log, limit)
        })
    }

    /// All three agree, or the program ends. The slots read, and how many runs of each make a batch.
    fn compare(&self) -> (u32, [usize; 3]) {
        let (our_time, ours) = self.ours(TRIAL);
        let (up_time, up) = self.up(TRIAL);
        let (down_time, down) = self.down(TRIAL);
        assert_eq!(ours, down, "{}: ours, Rust's", self.name);
        assert_eq!(ours.round, up, "{}: ours, walk up", self.name);
        let batch = |once| ((BATCH / once) as usize).clamp(1, 100_000);
        (ours.slots_read, [our_time, up_time, down_time].map(batch))
    }

    fn row(&self) -> Vec<String> {
        let (slots_read, batches) = self.compare();
        let (mut ours, mut up, mut down) = (Vec::new(), Vec::new(), Vec::new());
        for _ in 0..PASSES {
            ours.push(self.ours(batches[0]).0);
            up.push(self.up(batches[1]).0);
            down.push(self.down(batches[2]).0);
        }
        let (ours, up, down) = (median(&ours), median(&up), median(&down));
        vec![
            self.name.into(),
            self.term.to_string(),
            slots_read.to_string(),
            time(ours),
            time(up),
            ratio(up, ours),
            time(down),
            ratio(down, ours),
        ]
    }
}

/// A row for each case and T.
pub fn table() -> Vec<Vec<String>> {
    let mut rows = vec![head(
        "case, T, slots read, ours, Rust's walk up, over ours, Rust's search, over ours",
    )];
    let cases: Vec<Case> = TERMS.into_iter().flat_map(cases).collect();
    // Not shown: until then the processor may run below its full clock.
    cases[0].row();
    rows.extend(cases.iter().map(Case::row));
    rows
}
