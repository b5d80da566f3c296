//! Runs whole lists, and shrinks one that fails.

use std::time::{Duration, Instant};

use crate::call::{List, Step};
use crate::coverage::Coverage;
use crate::frame::SIZE;
use crate::library::Library;
use crate::lists::{Maker, Sizes};
use crate::runner::Runner;

/// What a list that passed came to.
pub struct Passed {
    pub calls: u64,
    /// Calls after which the claims were checked.
    pub checked: u64,
    /// Whether all premises of the claims held to the end.
    pub strict: bool,
}

/// A list up to the step that failed, and what was wrong.
pub struct Failure {
    pub list: List,
    pub message: String,
}

/// Makes and runs the list of a seed.
pub fn run(
    library: &dyn Library,
    seed: u64,
    sizes: Sizes,
    coverage: &mut Coverage,
) -> Result<Passed, Box<Failure>> {
    let maker = Maker::new(seed, sizes);
    let runner = Runner::new(library, maker.head());
    run_on(runner, maker, coverage)
}

/// Runs a list to its end or to the first step that fails.
pub fn run_on(
    mut runner: Runner,
    mut maker: Maker,
    coverage: &mut Coverage,
) -> Result<Passed, Box<Failure>> {
    coverage.list(maker.head());
    let mut steps = Vec::new();
    let mut wrong = None;
    while let Some(step) = maker.next(runner.sides()) {
        let result = runner.step(&step, coverage);
        match (&result, &step) {
            (Ok(outcome), Step::Call(call)) => maker.learn(call, outcome, runner.out(call.out_len)),
            (Ok(_), Step::Write(..)) => {}
            (Err(message), _) => wrong = Some(message.clone()),
        }
        steps.push(step);
        if wrong.is_some() {
            break;
        }
    }
    if wrong.is_none() {
        wrong = runner.end(coverage).err();
    }
    if let (None, true, Some(premise)) = (&wrong, maker.is_strict(), runner.claims.broken()) {
        wrong = Some(format!("the list itself broke a premise: {premise}"));
    }
    match wrong {
        None => Ok(Passed {
            calls: runner.calls,
            checked: runner.claims.checked,
            strict: maker.is_strict(),
        }),
        Some(message) => {
            let head = maker.head().clone();
            let list = List { head, steps };
            Err(Box::new(Failure { list, message }))
        }
    }
}

/// Runs a list again; the step that failed, the last if it is the end that did, and what was wrong.
pub fn replay(library: &dyn Library, list: &List) -> Result<(), (usize, String)> {
    let mut runner = Runner::new(library, &list.head);
    let mut coverage = Coverage::new();
    for (index, step) in list.steps.iter().enumerate() {
        if let Err(message) = runner.step(step, &mut coverage) {
            return Err((index, message));
        }
    }
    let last = list.steps.len().saturating_sub(1);
    runner.end(&mut coverage).map_err(|message| (last, message))
}

/// How long a list is shrunk at most.
const PATIENCE: Duration = Duration::from_secs(120);

/// Leaves out steps, and slots of written states, while the list still fails.
pub fn shrink(library: &dyn Library, failure: &Failure) -> Failure {
    let mut best = Failure {
        list: failure.list.clone(),
        message: failure.message.clone(),
    };
    let end = Instant::now() + PATIENCE;
    let mut size = best.list.steps.len();
    while size > 0 {
        let mut start = 0;
        let mut dropped = false;
        while start < best.list.steps.len() && Instant::now() < end {
            let mut list = best.list.clone();
            let stop = list.steps.len().min(start + size);
            list.steps.drain(start..stop);
            if keep_if_it_fails(library, &mut best, list) {
                dropped = true;
            } else {
                start += size;
            }
        }
        if !dropped || size > 1 {
            size /= 2;
        }
    }
    empty_slots(library, &mut best, end);
    best
}

/// Takes a smaller list over the best if it fails too, without the steps after the failing one.
fn keep_if_it_fails(library: &dyn Library, best: &mut Failure, mut list: List) -> bool {
    let Err((index, message)) = replay(library, &list) else {
        return false;
    };
    list.steps.truncate(index + 1);
    *best = Failure { list, message };
    true
}

/// Empties slots of written states that do not matter.
fn empty_slots(library: &dyn Library, best: &mut Failure, end: Instant) {
    for index in 0..best.list.steps.len() {
        let rounds = match best.list.steps.get(index) {
            Some(Step::Write(_, state)) => state.log.len() / SIZE,
            _ => 0,
        };
        for round in (0..rounds).take_while(|_| Instant::now() < end) {
            let mut list = best.list.clone();
            if let Some(Step::Write(_, state)) = list.steps.get_mut(index) {
                let slot = &mut state.log[SIZE * round..SIZE * (round + 1)];
                if slot.iter().all(|&byte| byte == 0) {
                    continue;
                }
                slot.fill(0);
                keep_if_it_fails(library, best, list);
            }
        }
    }
}
