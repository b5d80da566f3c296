//! What is timed: calls that are taken, and equivocations that are refused after both digests. Each leaves a state on which the
//! same call, with the record as it was, does the same work again, but for the mask of the round blamed, which is set back before
//! each call. Branches and sets of blames are of one frame, where the library makes digests one by one, and of several, where it may
//! make four at once.

use crate::book::{book, entry};
use crate::card::rotation;
use crate::placed::Placed;
use beside::frame::{self, Frame, CHECK_AT, GENESIS, SIZE};
use beside::model::{self, Record, LEAST_OUT, MOST_F};

/// f of every case that does not say it: five cards. That of the sets of blames is 7: fifteen cards.
const F: u8 = 2;
const TIMEOUT: u32 = 100;
/// The log begins a page; what is handed in and the out buffer begin in the middle of one, far from it for every copy.
const MIDDLE: usize = 2048;
/// The frames of a tray smaller than the chain.
const TRAY: u32 = 16;

#[derive(Clone, Copy)]
pub enum Call {
    Open,
    Branch,
    /// The mask of the round waited for, before the call.
    Blame {
        mask: u16,
    },
    /// The frames in one call; no bit of their round is set before.
    Blames,
    /// The same frames by as many calls of blame, each with the record as it was.
    BlameEach,
    Tick,
    Equivocation,
    Read {
        height: u32,
    },
    Fetch {
        height: u32,
    },
}

/// The buffers that a call is lent and may write.
#[derive(Clone, PartialEq)]
pub struct Lent {
    pub log: Placed,
    pub masks: Vec<u16>,
    pub out: Placed,
}

#[derive(Clone)]
pub struct Case {
    pub name: &'static str,
    pub call: Call,
    pub record: Record,
    pub lent: Lent,
    /// What is handed in; where nothing is, frames for the digests beside the call.
    pub frames: Placed,
    pub entry: Vec<u8>,
    /// The number that the call gives: 0 where it is taken.
    pub number: u8,
    /// How many digests the call makes.
    pub digests: usize,
    /// How many slots stand below the first that the call zeroes; none for a call that zeroes no slot.
    pub zeroed: Option<usize>,
    /// How many frames the call emits or copies to the out buffer.
    pub frames_out: usize,
}

impl Case {
    /// Whether one call judges so many frames that their digests may be made four at once.
    pub fn judges_several(&self) -> bool {
        matches!(self.call, Call::Branch | Call::Blames) && self.digests > 2
    }

    /// Whether the time beyond digests made one by one is worth a figure of its own.
    pub fn has_rest(&self) -> bool {
        let judges = matches!(
            self.call,
            Call::Blame { .. } | Call::BlameEach | Call::Equivocation
        );
        (self.zeroed.is_some() || judges) && !self.judges_several()
    }
}

fn leader(round: u32, f: u8) -> u8 {
    model::leader(round, f, &rotation(f))
}

/// A chain with a block in each round up to `last`.
fn chain(f: u8, last: u32) -> Vec<u8> {
    book(f, last, |_| false)
}

fn handed(frames: &[u8]) -> Placed {
    Placed::new(MIDDLE, frames)
}

/// An out buffer of so many bytes.
fn tray(size: usize) -> Placed {
    Placed::new(MIDDLE, &vec![0; size])
}

/// A card that leads neither of two rounds.
fn idle(f: u8, rounds: [u32; 2]) -> u8 {
    let leads = |card| rounds.iter().any(|&round| leader(round, f) == card);
    (0..).find(|&card| !leads(card)).expect("three cards")
}

/// The record of a card that holds a block in each round up to `tip` and leads neither of the next two rounds.
fn record(f: u8, term: u32, tip: u32) -> Record {
    let committed = tip.saturating_sub(u32::from(f));
    Record {
        own: idle(f, [tip + 1, tip + 2]),
        f,
        wait: TIMEOUT,
        term,
        round: tip + 1,
        left: TIMEOUT,
        tip_round: tip,
        tip_height: tip,
        committed_round: committed,
        committed_height: committed,
        rotation: rotation(f),
        equivocators: 0,
    }
}

fn case(name: &'static str, call: Call, term: u32, tip: u32) -> Case {
    case_of(F, name, call, term, tip)
}

fn case_of(f: u8, name: &'static str, call: Call, term: u32, tip: u32) -> Case {
    let mut log = chain(f, tip);
    log.resize(term as usize * SIZE, 0);
    Case {
        name,
        call,
        record: record(f, term, tip),
        lent: Lent {
            log: Placed::new(0, &log),
            masks: vec![0; term as usize],
            out: tray(LEAST_OUT),
        },
        frames: handed(&chain(f, 1)),
        entry: entry(0),
        number: 0,
        digests: 0,
        zeroed: None,
        frames_out: 0,
    }
}

fn open(term: u32) -> Case {
    let mut case = case("open", Call::Open, term, 0);
    case.lent.log.fill(0xa5);
    case.lent.masks.fill(0xa5a5);
    case.zeroed = Some(0);
    case
}

fn tick_that_blames(term: u32) -> Case {
    let mut case = case("tick that blames", Call::Tick, term, term / 2);
    case.record.left = 1;
    case.digests = 1;
    case.frames_out = 1;
    case
}

fn blame_that_sets_a_bit(term: u32) -> Case {
    let call = Call::Blame { mask: 0 };
    let mut case = case("blame that sets a bit", call, term, term / 2);
    case.frames = handed(&frame::blame(case.record.own ^ 1, case.record.round));
    case.digests = 1;
    case
}

/// The last blame that the round lacks; the card does not lead the next round.
fn blame_that_passes(term: u32) -> Case {
    let mut case = case(
        "blame that certifies",
        Call::Blame { mask: 0 },
        term,
        term / 2,
    );
    let Record { own, round, .. } = case.record;
    let signer = |i: u8| (own + 1 + i) % (2 * F + 1);
    let mask = (1..=F).map(|i| 1 << signer(i)).sum();
    case.call = Call::Blame { mask };
    case.frames = handed(&frame::blame(signer(0), round));
    case.digests = 1;
    case
}

/// The last blame that the round lacks; the card leads the next round, and proposes.
fn blame_that_certifies(term: u32) -> Case {
    let (round, proposer) = (term / 2 + 1, leader(term / 2 + 2, F));
    let signer = |i: u8| (proposer + 1 + i) % (2 * F + 1);
    let mask = (1..=F).map(|i| 1 << signer(i)).sum();
    let mut case = case(
        "blame that certifies, and a block",
        Call::Blame { mask },
        term,
        term / 2,
    );
    case.record.own = proposer;
    case.frames = handed(&frame::blame(signer(0), round));
    case.digests = 2;
    case.frames_out = 1;
    case
}

/// So many blames of the round waited for, the card's own last of all; f + 1 certify it. The card does not lead the next round.
fn set(name: &'static str, call: Call, term: u32, count: u8) -> Case {
    let mut case = case_of(MOST_F, name, call, term, term / 2);
    let Record { own, f, round, .. } = case.record;
    let signers = (0..count).map(|i| (own + 1 + i) % (2 * f + 1));
    let blames: Vec<u8> = signers
        .flat_map(|signer| frame::blame(signer, round))
        .collect();
    case.frames = handed(&blames);
    case.digests = usize::from(count);
    case
}

/// A block of a round by its leader; blocks of one round and leader differ in their entries.
fn block(f: u8, round: u32, nth: u32) -> Frame {
    frame::block(leader(round, f), round, round, &GENESIS, &entry(nth))
}

/// Two blocks of the tip's round; no card is marked before.
fn equivocation(f: u8, name: &'static str, term: u32) -> Case {
    let mut case = case_of(f, name, Call::Equivocation, term, term / 2);
    let round = case.record.tip_round;
    case.frames = handed([block(f, round, 1), block(f, round, 2)].as_flattened());
    case.digests = 2;
    case
}

/// The leader has its mark already.
fn equivocation_again(term: u32) -> Case {
    let mut case = equivocation(F, "equivocation, marked already", term);
    case.record.equivocators = 1 << leader(case.record.tip_round, F);
    case
}

/// The same frame twice, the last thing that is tried.
fn equal_frames(term: u32) -> Case {
    let mut case = equivocation(F, "equivocation refused: equal frames", term);
    case.frames.copy_within(..SIZE, SIZE);
    case.number = 18;
    case
}

/// A byte behind the second entry is not zero, which is tried last of its form.
fn second_out_of_form(term: u32) -> Case {
    let mut case = equivocation(F, "equivocation refused: second's form", term);
    let [_, second] = case.frames.as_chunks_mut().0 else {
        unreachable!("two frames")
    };
    second[CHECK_AT - 1] = 1;
    frame::seal(second);
    case.number = 8;
    case
}

/// The frames of rounds tip + 1 up to last, on the tip; the card does not lead the round after them.
fn branch(name: &'static str, term: u32, tip: u32, last: u32) -> Case {
    let mut case = case(name, Call::Branch, term, tip);
    case.record.own = idle(F, [tip + 1, last + 1]);
    case.frames = handed(&chain(F, last)[tip as usize * SIZE..]);
    case.digests = (last - tip) as usize;
    case.zeroed = Some(tip as usize);
    case
}

/// Fills a tray of so many frames from a height on; a block in every round.
fn fetch(name: &'static str, term: u32, height: u32, frames: u32) -> Case {
    let mut case = case(name, Call::Fetch { height }, term, term);
    case.lent.out = tray(frames as usize * SIZE);
    case.frames_out = frames as usize;
    case
}

/// The cases for one T.
pub fn cases(term: u32) -> Vec<Case> {
    let height = term - u32::from(F);
    vec![
        open(term),
        case("tick", Call::Tick, term, term / 2),
        case_of(1, "tick, f = 1", Call::Tick, term, term / 2),
        case_of(MOST_F, "tick, f = 7", Call::Tick, term, term / 2),
        tick_that_blames(term),
        blame_that_sets_a_bit(term),
        blame_that_passes(term),
        blame_that_certifies(term),
        set("blames of 3, f = 7", Call::Blames, term, 3),
        set("blames of f + 1, f = 7", Call::Blames, term, MOST_F + 1),
        set(
            "the same by blame, one by one",
            Call::BlameEach,
            term,
            MOST_F + 1,
        ),
        set("blames of 15, f = 7", Call::Blames, term, 2 * MOST_F + 1),
        equivocation(F, "equivocation", term),
        equivocation(MOST_F, "equivocation, f = 7", term),
        equivocation_again(term),
        equal_frames(term),
        second_out_of_form(term),
        branch("branch of 1 on round 0", term, 0, 1),
        branch("branch of 1 on round T / 2", term, term / 2, term / 2 + 1),
        branch("branch of 3 on round 0", term, 0, 3),
        branch("branch of 4 on round 0", term, 0, 4),
        branch("branch of 32 on round 0", term, 0, 32),
        branch("branch of T on round 0", term, 0, term),
        case("read, newest committed", Call::Read { height }, term, term),
        fetch("fetch of T", term, 0, term),
        fetch("fetch of 16 above height 0", term, 0, TRAY),
        fetch("fetch of 16 above height T / 2", term, term / 2, TRAY),
        fetch("fetch of the last 16", term, term - TRAY, TRAY),
    ]
}
