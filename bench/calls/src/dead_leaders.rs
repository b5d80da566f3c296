//! How long an entry waits until it is committed where cards are dead, on the library. Counted, not timed: all frames under way
//! are delivered in one step, and when there are none every living card gets a tick.

use crate::card::{rotation, Card};
use beside::ffi::Archive;
use beside::frame::{BLOCK, SIZE};
use beside::library::Library;
use beside::model::{seats, Answer, Lent, Record, Setup};
use std::mem::take;

/// Ticks until a card blames the round that it waits for.
pub const TIMEOUT: u32 = 4;

/// What is run: the card on seat 0 proposes the entry in round r = n + 1, the first of the second turn.
#[derive(Clone, Copy, Debug)]
pub struct Case {
    pub f: u8,
    /// How many rounds after r the first dead card leads; the other dead cards follow it.
    pub first: u32,
    /// How many cards are dead: they are never opened.
    pub dead: u32,
    /// Whether round r + f is the last of the term. Else a whole turn follows r.
    pub ends: bool,
}

/// From the emission of the entry's block until something is so at every living card.
#[derive(Clone, Copy, Debug, PartialEq, Eq)]
pub struct Wait {
    /// The rounds after r that all of them have passed.
    pub rounds: u32,
    pub ticks: u32,
}

/// None: it is not so when the term is over.
pub struct Waits {
    /// The entry is committed.
    pub committed: Option<Wait>,
    /// R is above r + f.
    pub by_round: Option<Wait>,
    /// There is a block of round r + f or later.
    pub by_tip: Option<Wait>,
}

impl Case {
    pub fn cards(self) -> u32 {
        2 * u32::from(self.f) + 1
    }

    fn entry_round(self) -> u32 {
        self.cards() + 1
    }

    /// The rounds after r.
    fn after(self) -> u32 {
        if self.ends {
            self.f.into()
        } else {
            self.cards()
        }
    }

    fn term(self) -> u32 {
        self.entry_round() + self.after()
    }

    /// Whether the card on a seat is dead, or the leader of the round so many after r.
    fn is_dead(self, seat: u32) -> bool {
        (self.first..self.first + self.dead).contains(&(seat % self.cards()))
    }

    /// By the paper: each of so many rounds after r is passed with its block or, after a timeout, with blames.
    fn passing(self, rounds: u32) -> Wait {
        let dead = (1..=rounds).filter(|&round| self.is_dead(round)).count();
        let ticks = dead as u32 * TIMEOUT;
        Wait { rounds, ticks }
    }

    /// By the paper: until R is above r + f, and until there is a block of round r + f or later.
    fn expected(self) -> [Option<Wait>; 2] {
        let f = u32::from(self.f);
        let block = (f..=self.after()).find(|&round| !self.is_dead(round));
        [Some(f), block].map(|rounds| rounds.map(|rounds| self.passing(rounds)))
    }
}

struct Cabinet {
    /// By seat; none for a dead one.
    cards: Vec<Option<Card>>,
    /// Frames and the cards that they go to.
    under_way: Vec<(usize, Vec<u8>)>,
}

impl Cabinet {
    fn open(case: Case) -> Cabinet {
        let card = |seat| (!case.is_dead(seat)).then(|| Card::closed(case.term()));
        let mut cabinet = Cabinet {
            cards: (0..case.cards()).map(card).collect(),
            under_way: Vec::new(),
        };
        let rotation = rotation(case.f);
        for seat in cabinet.seats() {
            let setup = Setup {
                own: rotation[seat],
                f: case.f,
                wait: TIMEOUT,
                term: case.term(),
            };
            cabinet.call(seat, |_, lent| {
                Archive.open(setup, seats(&rotation, case.f), lent)
            });
        }
        cabinet
    }

    fn living(&self) -> impl Iterator<Item = &Card> {
        self.cards.iter().flatten()
    }

    /// Whether something is so at every living card.
    fn all(&self, is_so: impl Fn(&Record) -> bool) -> bool {
        self.living().all(|card| is_so(&card.record))
    }

    /// The living cards' seats.
    fn seats(&self) -> Vec<usize> {
        let lives = |&seat: &usize| self.cards[seat].is_some();
        (0..self.cards.len()).filter(lives).collect()
    }

    /// One call at a living card, taken while its term lasts. What it emits goes to the others.
    fn call(&mut self, at: usize, call: impl FnOnce(Record, Lent) -> Answer) {
        let card = self.cards[at].as_mut().expect("a living card");
        let number = if is_over(&card.record) { 3 } else { 0 };
        let (answer, frames) = card.call(&[at as u8], call);
        assert_eq!(answer.number, number, "the card on seat {at}");
        for to in self.seats().into_iter().filter(|&to| to != at) {
            let copies = frames.iter().map(|frame| (to, frame.clone()));
            self.under_way.extend(copies);
        }
    }

    fn deliver(&mut self) {
        for (to, frame) in take(&mut self.under_way) {
            self.call(to, |record, lent| match frame[0] {
                BLOCK => Archive.branch(record, &frame, lent),
                _ => Archive.blame(record, &frame, lent),
            });
        }
    }

    fn tick(&mut self) {
        for at in self.seats() {
            self.call(at, |record, lent| Archive.tick(record, lent));
        }
    }
}

fn is_over(record: &Record) -> bool {
    record.round > record.term
}

/// Runs a case, and holds it to the paper: what it counts, and that the living cards' lists are one.
pub fn run(case: Case) -> Waits {
    let (f, r) = (u32::from(case.f), case.entry_round());
    let mut cabinet = Cabinet::open(case);
    let (mut steps, mut ticks) = (0, 0);
    let [mut committed, mut by_round, mut by_tip] = [None; 3];
    while !(cabinet.under_way.is_empty() && cabinet.all(is_over)) {
        let emitted = cabinet.living().any(|card| card.record.tip_round >= r);
        if cabinet.under_way.is_empty() {
            cabinet.tick();
            ticks += u32::from(emitted);
        } else {
            cabinet.deliver();
            steps += u32::from(emitted);
        }
        let passed = cabinet.living().map(|card| card.record.round - 1).min();
        let now = || {
            let rounds = passed.expect("a living card") - r;
            assert_eq!(steps, rounds + 1, "{case:?}: a delivery for each round");
            Wait { rounds, ticks }
        };
        let note = |wait: &mut Option<Wait>, is_so: bool| *wait = wait.or(is_so.then(now));
        note(
            &mut committed,
            cabinet.all(|card| card.committed_round >= r),
        );
        note(&mut by_round, cabinet.all(|card| card.round > r + f));
        note(&mut by_tip, cabinet.all(|card| card.tip_round >= r + f));
    }
    assert_eq!([by_round, by_tip], case.expected(), "{case:?}");
    agree(case, &cabinet, committed.is_some());
    Waits {
        committed,
        by_round,
        by_tip,
    }
}

/// Now that the term is over, the living cards have committed the same, and the entry if it is said to be.
fn agree(case: Case, cabinet: &Cabinet, committed: bool) {
    let first = cabinet.living().next().expect("a living card");
    let end = first.record.committed_round as usize * SIZE;
    let at = (case.entry_round() as usize - 1) * SIZE;
    for Card { record, log, .. } in cabinet.living() {
        assert_eq!(record.committed_round, first.record.committed_round);
        assert!(log[..end] == first.log[..end], "{case:?}: the lists");
        let height = u32::from_be_bytes(log[at + 8..at + 12].try_into().expect("4 bytes"));
        let part = Archive.read(*record, log, height);
        let is_read = part.number == 0 && part.start / SIZE * SIZE == at;
        assert_eq!(is_read, committed, "{case:?}: the entry is read");
    }
}
