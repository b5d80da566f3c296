//! Runs calls on the library and on the model and compares every byte after each, and two searches.
//! Some calls are made with other marks too, on copies. After some calls, and at the end, a card
//! catches up with another on copies, by what that one has and by what it had earlier.

use crate::call::{Call, Head, State, Step, What};
use crate::catch_up::{Card, CatchUp, Due};
use crate::claims::Claims;
use crate::coverage::{Before, Coverage};
use crate::earlier::Earlier;
use crate::frame::{Frame, SIZE};
use crate::library::{Library, Model};
use crate::marks::{self, Other};
use crate::model::{self, Answer, Fetched, Lent, Marked, Part, Record, Search};
use crate::rng::Rng;
use crate::show::Filled;

/// Cells around a lent buffer that nobody may write; odd, so that bytes lie at odd addresses.
const GUARD: usize = 65;
/// Room for buffers that are too long.
const SLACK: usize = 1024;
/// How far above T a search begins at most.
const ABOVE: u32 = 3;
/// One in so many calls is followed by a card's catching up.
const CATCH_UPS: usize = 16;
/// One in so many of these is tried with what was there earlier, too.
const EARLIER: usize = 3;
/// One in so many calls is made with other marks, too.
const OTHER_MARKS: usize = 16;

/// A lent buffer between two guards.
#[derive(Clone)]
pub struct Buffer<T> {
    cells: Vec<T>,
}

impl<T: Copy + PartialEq> Buffer<T> {
    fn new(room: usize, value: T, guard: T) -> Self {
        let mut cells = vec![guard; GUARD];
        cells.resize(GUARD + room, value);
        cells.resize(GUARD + room + GUARD, guard);
        Buffer { cells }
    }

    pub fn room(&self) -> usize {
        self.cells.len() - 2 * GUARD
    }

    /// The first `length` cells.
    pub fn part(&self, length: usize) -> &[T] {
        &self.cells[GUARD..GUARD + length]
    }

    fn lent(&mut self, length: usize) -> &mut [T] {
        &mut self.cells[GUARD..GUARD + length]
    }

    /// Where two buffers first differ in their first `length` cells and the guards around them.
    pub fn difference(&self, other: &Self, length: usize) -> Option<isize> {
        let end = GUARD + length + GUARD;
        let (these, others) = (&self.cells[..end], &other.cells[..end]);
        if these == others {
            return None;
        }
        let mut pairs = these.iter().zip(others);
        let index = pairs.position(|(a, b)| a != b)?;
        Some(index as isize - GUARD as isize)
    }
}

/// What one card's host keeps.
#[derive(Clone)]
pub struct Side {
    pub record: Record,
    pub log: Buffer<u8>,
    pub masks: Buffer<u16>,
}

impl Side {
    fn new(term: u32) -> Side {
        Side {
            record: Record::default(),
            log: Buffer::new(SIZE * term as usize + SLACK, 0, 0x5a),
            masks: Buffer::new(term as usize + SLACK / SIZE, 0, 0x5a5a),
        }
    }

    /// A slot of the book.
    pub fn slot(&self, round: u32) -> &Frame {
        &model::slots(self.log.part(SIZE * round as usize))[round as usize - 1]
    }

    /// Where log or masks differ from another's.
    pub fn difference(&self, other: &Side) -> Option<String> {
        if let Some(at) = self.log.difference(&other.log, other.log.room()) {
            let round = at.div_euclid(SIZE as isize) + 1;
            return Some(format!("log differs at byte {at}, slot {round}"));
        }
        let at = self.masks.difference(&other.masks, other.masks.room())?;
        Some(format!("masks differ at round {}", at + 1))
    }

    /// Another state; what lies beyond its sizes becomes zero.
    fn write(&mut self, state: &State) {
        self.record = state.record;
        self.log.lent(self.log.room()).fill(0);
        self.masks.lent(self.masks.room()).fill(0);
        self.log.lent(state.log.len()).copy_from_slice(&state.log);
        let masks = self.masks.lent(state.masks.len());
        masks.copy_from_slice(&state.masks);
    }
}

/// What a call came to.
#[derive(Clone, Copy, Debug, PartialEq, Eq)]
pub enum Outcome {
    /// A state was written; no call was made.
    Written,
    Answer(Answer),
    Marked(Marked),
    Part(Part),
    Fetched(Fetched),
    Digest,
}

impl Outcome {
    pub fn answer(&self) -> Option<&Answer> {
        match self {
            Outcome::Answer(answer) => Some(answer),
            _ => None,
        }
    }

    pub fn number(&self) -> Option<u8> {
        match self {
            Outcome::Answer(answer) => Some(answer.number),
            Outcome::Marked(marked) => Some(marked.number),
            Outcome::Part(part) => Some(part.number),
            Outcome::Fetched(fetched) => Some(fetched.number),
            Outcome::Written | Outcome::Digest => None,
        }
    }

    /// The record that the call gave.
    pub fn record(&self) -> Option<&Record> {
        match self {
            Outcome::Answer(answer) => Some(&answer.record),
            Outcome::Marked(marked) => Some(&marked.record),
            _ => None,
        }
    }

    /// The record that the host keeps: that of a call that was taken.
    pub fn kept(&self) -> Option<&Record> {
        self.record().filter(|_| self.number() == Some(0))
    }

    /// The marks in the record that the call gave, zero if it gave none.
    pub fn marks(&self) -> u16 {
        self.record().map_or(0, |record| record.equivocators)
    }

    /// The same with other marks in the record, if there is one.
    pub fn with_marks(mut self, marks: u16) -> Outcome {
        match &mut self {
            Outcome::Answer(answer) => answer.record.equivocators = marks,
            Outcome::Marked(marked) => marked.record.equivocators = marks,
            _ => {}
        }
        self
    }
}

/// What a search on the library came to.
#[derive(Clone, Copy, Debug)]
pub struct Searched {
    /// How many slots of the book it was lent.
    pub slots: usize,
    pub limit: u32,
    pub answer: Search,
}

/// What a blame by itself came to.
struct Alone {
    answer: Answer,
    side: Side,
    out: Buffer<u8>,
}

impl Alone {
    /// Claim: blames of one frame answers and leaves what blame of it does.
    fn same_as(&self, answer: &Answer, side: &Side, out: &Buffer<u8>) -> Result<(), String> {
        let same = *answer == self.answer
            && side.difference(&self.side).is_none()
            && out.difference(&self.out, out.room()).is_none();
        if same {
            return Ok(());
        }
        Err("claim: blames of one frame is not blame of it".into())
    }
}

/// Library and model side by side.
pub struct Runner<'l> {
    library: &'l dyn Library,
    reference: &'l dyn Library,
    tried: Vec<Side>,
    model: Vec<Side>,
    tried_out: Buffer<u8>,
    model_out: Buffer<u8>,
    /// The library's copies of what it may only read.
    entry: Vec<u8>,
    given: Vec<u8>,
    /// Fills the out buffers before a call, and what is added to it each time.
    fill: u8,
    stride: u8,
    /// T.
    term: u32,
    pub claims: Claims,
    pub earlier: Earlier,
    pub calls: u64,
}

impl<'l> Runner<'l> {
    pub fn new(library: &'l dyn Library, head: &Head) -> Self {
        Runner::beside(library, &Model, head)
    }

    /// Another reference than the model.
    pub fn beside(library: &'l dyn Library, reference: &'l dyn Library, head: &Head) -> Self {
        let sides = || (0..head.cards).map(|_| Side::new(head.term)).collect();
        let out = || Buffer::new(SIZE * head.term as usize + 4 * SLACK, 0, 0x5a);
        Runner {
            library,
            reference,
            tried: sides(),
            model: sides(),
            tried_out: out(),
            model_out: out(),
            entry: Vec::new(),
            given: Vec::new(),
            fill: 0,
            stride: 37,
            term: head.term,
            claims: Claims::new(head),
            earlier: Earlier::new(head.cards),
            calls: 0,
        }
    }

    /// Fills the out buffers with one byte before every call.
    pub fn with_fill(mut self, fill: u8) -> Self {
        (self.fill, self.stride) = (fill, 0);
        self
    }

    /// The cards as the library left them.
    pub fn sides(&self) -> &[Side] {
        &self.tried
    }

    /// The out buffer as the library left it.
    pub fn out(&self, length: usize) -> &[u8] {
        self.tried_out.part(length)
    }

    /// Makes one step; what differed, if anything did.
    pub fn step(&mut self, step: &Step, coverage: &mut Coverage) -> Result<Outcome, String> {
        match step {
            Step::Write(card, state) => {
                self.claims.written(*card);
                self.tried[*card].write(state);
                self.model[*card].write(state);
                Ok(Outcome::Written)
            }
            Step::Call(call) => self.call(call, coverage),
        }
    }

    fn call(&mut self, call: &Call, coverage: &mut Coverage) -> Result<Outcome, String> {
        self.calls += 1;
        self.claims.before(call);
        self.prepare(call);
        let before = Before::of(call, &self.model[call.card]);
        let handed = call.record.unwrap_or(self.tried[call.card].record);
        let (alone, other) = (self.alone(call, handed), self.other_marks(call, &handed));
        let outcome = match &call.what {
            What::Digest(bytes) => self.digest(bytes)?,
            _ => self.make(call)?,
        };
        let searched = self.searches(call);
        self.compare(call)?;
        let searched = searched?;
        self.check_alone(call, &outcome, alone)?;
        self.check_marks(call, &handed, &outcome, other, coverage)?;
        let out = self.tried_out.part(call.out_len);
        let search = searched[0].answer;
        let due = self
            .claims
            .after(call, &outcome, &self.tried, out, search)?;
        self.note_earlier(call, &outcome);
        self.catch_up_after(call, coverage)?;
        coverage.call(call, &before, &outcome, due);
        coverage.searches(&searched, &self.tried[call.card]);
        Ok(outcome)
    }

    fn prepare(&mut self, call: &Call) {
        self.fill = self.fill.wrapping_add(self.stride);
        self.tried_out.lent(call.out_len).fill(self.fill);
        self.model_out.lent(call.out_len).fill(self.fill);
        self.entry.clear();
        self.entry.extend_from_slice(&call.entry);
        self.given.clear();
        self.given.extend_from_slice(call.given());
    }

    /// Any call but digest, on both sides; the hosts keep the record of one that is taken.
    fn make(&mut self, call: &Call) -> Result<Outcome, String> {
        let tried = &mut self.tried[call.card];
        let record = call.record.unwrap_or(tried.record);
        let (given, out) = ((&self.entry[..], &self.given[..]), &mut self.tried_out);
        let outcome = make(self.library, call, record, given, tried, out);
        let model = &mut self.model[call.card];
        let record = call.record.unwrap_or(model.record);
        let (given, out) = ((&call.entry[..], call.given()), &mut self.model_out);
        let expected = make(self.reference, call, record, given, model, out);
        same(call.word(), outcome, expected)?;
        if let (Some(kept), Some(expected)) = (outcome.kept(), expected.kept()) {
            tried.record = *kept;
            model.record = *expected;
        }
        Ok(outcome)
    }

    /// For a set of one frame: what the library's blame of it does to copies of the buffers.
    fn alone(&self, call: &Call, handed: Record) -> Option<Alone> {
        if !call.is_set_of_one() {
            return None;
        }
        let (mut side, mut out) = (self.tried[call.card].clone(), self.tried_out.clone());
        let lent = lend(&mut side, call, &self.entry, &mut out);
        let answer = self.library.blame(handed, &self.given, lent);
        Some(Alone { answer, side, out })
    }

    fn check_alone(
        &self,
        call: &Call,
        outcome: &Outcome,
        alone: Option<Alone>,
    ) -> Result<(), String> {
        match (alone, outcome.answer()) {
            (Some(alone), Some(answer)) => {
                alone.same_as(answer, &self.tried[call.card], &self.tried_out)
            }
            _ => Ok(()),
        }
    }

    /// For some calls: what the library does to copies with other marks in the record.
    fn other_marks(&self, call: &Call, handed: &Record) -> Option<Other> {
        let mut rng = Rng::new(call.seed().rotate_left(32));
        let without = matches!(call.what, What::Open(..) | What::Digest(_));
        if without || rng.below(OTHER_MARKS) > 0 {
            return None;
        }
        let handed = marks::other(&mut rng, handed)?;
        let (mut side, mut out) = (self.tried[call.card].clone(), self.tried_out.clone());
        let given = (&self.entry[..], &self.given[..]);
        let outcome = make(self.library, call, handed, given, &mut side, &mut out);
        Some(Other {
            handed,
            outcome,
            side,
            out,
        })
    }

    /// No mark was cleared, and other marks change nothing else.
    fn check_marks(
        &self,
        call: &Call,
        handed: &Record,
        outcome: &Outcome,
        other: Option<Other>,
        coverage: &mut Coverage,
    ) -> Result<(), String> {
        marks::check(call, handed, outcome)?;
        let Some(other) = other else {
            return Ok(());
        };
        let side = &self.tried[call.card];
        other.same_as(call, handed, outcome, side, &self.tried_out)?;
        coverage.other_marks(call, outcome, handed, &other.handed);
        Ok(())
    }

    fn digest(&mut self, bytes: &[u8]) -> Result<Outcome, String> {
        let digest = self.library.digest(bytes);
        same("digest", digest, crate::sha256::digest(bytes))?;
        Ok(Outcome::Digest)
    }

    /// After a call: the card's book up to R - 1 - f, and what it was lent of it up to another
    /// round, at times a round above the book.
    fn searches(&self, call: &Call) -> Result<[Searched; 2], String> {
        let (term, record) = (self.term, &self.tried[call.card].record);
        let own = model::limit(record.round, record.f).min(term + ABOVE);
        let mut rng = Rng::new(call.seed());
        let other = match rng.below(4) {
            0 => 0,
            1 => term,
            _ => rng.within(0, term + ABOVE),
        };
        let first = self.search(call.card, term as usize, own)?;
        let second = self.search(call.card, call.log_len / SIZE, other)?;
        Ok([first, second])
    }

    fn search(&self, card: usize, slots: usize, limit: u32) -> Result<Searched, String> {
        let log = self.tried[card].log.part(SIZE * slots);
        let answer = self.library.search(log, limit);
        let log = self.model[card].log.part(SIZE * slots);
        let expected = self.reference.search(log, limit);
        if answer != expected {
            let book = format!("{slots} slots, filled {}", Filled(log));
            let what = format!("search in {book}, limit {limit},");
            same(&what, answer, expected)?;
        }
        Ok(Searched {
            slots,
            limit,
            answer,
        })
    }

    /// Keeps what a call left at a card for later.
    fn note_earlier(&mut self, call: &Call, outcome: &Outcome) {
        let card = Card {
            number: call.card,
            side: &self.tried[call.card],
        };
        let due = self.claims.catching_up_is_due_for(call.card, card.side);
        self.earlier.after(call, outcome, card, due);
    }

    /// After some calls the called card catches up with another or, more often, another with it;
    /// mostly that is the lawful card with the lowest R, of all or of those that are not sound.
    fn catch_up_after(&self, call: &Call, coverage: &mut Coverage) -> Result<(), String> {
        let (mut rng, cards) = (Rng::new(!call.seed()), self.tried.len());
        if cards == 1 || rng.below(CATCH_UPS) > 0 {
            return Ok(());
        }
        let called = call.card;
        let other = (called + 1 + rng.below(cards - 1)) % cards;
        let lowest = self.lowest(called, |_| true).unwrap_or(other);
        let unsound = self.lowest(called, |card| !self.claims.are_due_for(card));
        let (taker, giver) = match rng.below(6) {
            0 => (called, other),
            1 => (called, lowest),
            2 => (other, called),
            3 => (unsound.unwrap_or(lowest), called),
            _ => (lowest, called),
        };
        self.catch_up(taker, giver, &mut rng, coverage)?;
        match rng.below(EARLIER) {
            0 => self.catch_up_by_earlier(taker, giver, &mut rng, coverage),
            _ => Ok(()),
        }
    }

    /// The card with the lowest R of the lawful ones that fit, the called one left out.
    fn lowest(&self, called: usize, fits: impl Fn(usize) -> bool) -> Option<usize> {
        let lawful = |card: &usize| self.claims.is_lawful(*card, &self.tried[*card]);
        let others = (0..self.tried.len()).filter(|&card| card != called && fits(card));
        let round = |card: &usize| self.tried[*card].record.round;
        others.filter(lawful).min_by_key(round)
    }

    /// At the end of a list each card catches up with the next.
    pub fn end(&self, coverage: &mut Coverage) -> Result<(), String> {
        let cards = self.tried.len();
        (0..cards).try_for_each(|taker| {
            let (giver, mut rng) = ((taker + 1) % cards, Rng::new(taker as u64));
            self.catch_up(taker, giver, &mut rng, coverage)?;
            self.catch_up_by_earlier(taker, giver, &mut rng, coverage)
        })
    }

    /// One card catches up with another, on copies.
    fn catch_up(
        &self,
        taker: usize,
        giver: usize,
        rng: &mut Rng,
        coverage: &mut Coverage,
    ) -> Result<(), String> {
        let (claims, pair) = (&self.claims, [taker, giver]);
        let both = |fits: fn(&Claims, usize, &Side) -> bool| {
            pair.iter()
                .all(|&card| fits(claims, card, &self.tried[card]))
        };
        let due = Due {
            giver: claims.rules_are_due_for(giver),
            committed: both(Claims::catching_up_is_due_for),
            shared: both(Claims::is_lawful),
        };
        if due == Due::default() {
            return Ok(());
        }
        let [back, other] = pair.map(|card| self.card(card));
        if let Some(catch_up) = CatchUp::new(self.library, back, other) {
            let checked = catch_up.check(due, rng)?;
            coverage.catch_up(&catch_up, &checked, claims.are_due_for(taker));
        }
        Ok(())
    }

    fn card(&self, number: usize) -> Card<'_> {
        Card {
            number,
            side: &self.tried[number],
        }
    }

    /// The same by a line that the other has or had, above what the one had committed. The other need
    /// not keep the rules any more, if it did when it had that line.
    fn catch_up_by_earlier(
        &self,
        taker: usize,
        giver: usize,
        rng: &mut Rng,
        coverage: &mut Coverage,
    ) -> Result<(), String> {
        let cards = [taker, giver].map(|card| self.card(card));
        let [due, giver_due] =
            cards.map(|card| self.claims.catching_up_is_due_for(card.number, card.side));
        let had = self.earlier.record(taker, rng).filter(|_| due);
        let line = match self.earlier.line(giver) {
            Some(line) if !giver_due || rng.chance(75) => Some(line.to_vec()),
            _ => giver_due.then(|| cards[1].above(0)),
        };
        let (Some(had), Some(line)) = (had, line) else {
            return Ok(());
        };
        if let Some(catch_up) = CatchUp::earlier(self.library, cards, &had, &line) {
            let replies = catch_up.hand_in_some(rng)?;
            coverage.catch_up_by_earlier(&catch_up, &had, &replies);
        }
        Ok(())
    }

    /// Every byte of every buffer after a call.
    fn compare(&self, call: &Call) -> Result<(), String> {
        let (tried, model) = (&self.tried[call.card], &self.model[call.card]);
        if let Some(difference) = tried.difference(model) {
            return Err(difference);
        }
        if let Some(at) = self.tried_out.difference(&self.model_out, call.out_len) {
            return Err(format!("out differs at byte {at}"));
        }
        if self.entry != call.entry {
            return Err("the lent entry was changed".into());
        }
        if self.given != call.given() {
            return Err("the handed frames, or the lent rotation, were changed".into());
        }
        Ok(())
    }
}

fn same<T: PartialEq + std::fmt::Debug>(what: &str, tried: T, expected: T) -> Result<(), String> {
    if tried == expected {
        return Ok(());
    }
    Err(format!(
        "{what} differs:\n  library {tried:?}\n  model   {expected:?}"
    ))
}

fn lend<'a>(side: &'a mut Side, call: &Call, entry: &'a [u8], out: &'a mut Buffer<u8>) -> Lent<'a> {
    Lent {
        log: side.log.lent(call.log_len),
        masks: side.masks.lent(call.masks_len),
        entry,
        out: out.lent(call.out_len),
    }
}

/// Makes any call but digest, with an entry and the bytes that only this call is lent.
fn make(
    library: &dyn Library,
    call: &Call,
    record: Record,
    (entry, given): (&[u8], &[u8]),
    side: &mut Side,
    out: &mut Buffer<u8>,
) -> Outcome {
    let log = side.log.part(call.log_len);
    match call.what {
        What::Equivocation(_) => Outcome::Marked(library.equivocation(record, given)),
        What::Read(height) => Outcome::Part(library.read(record, log, height)),
        What::Fetch(height) => {
            let out = out.lent(call.out_len);
            Outcome::Fetched(library.fetch(record, log, height, out))
        }
        _ => {
            let lent = lend(side, call, entry, out);
            Outcome::Answer(ask(library, call, record, given, lent))
        }
    }
}

fn ask(library: &dyn Library, call: &Call, record: Record, given: &[u8], lent: Lent) -> Answer {
    match &call.what {
        What::Open(setup, _) => library.open(*setup, given, lent),
        What::Branch(_) => library.branch(record, given, lent),
        What::Blame(_) => library.blame(record, given, lent),
        What::Blames(_) => library.blames(record, given, lent),
        _ => library.tick(record, lent),
    }
}
