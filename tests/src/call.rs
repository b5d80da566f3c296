//! Lists of calls, each call with all its bytes, so that any part of a list can be run again.

use crate::frame::{Frame, SIZE};
use crate::model::{leader, seats, whole_frames};
use crate::model::{Record, Rotation, Setup, LEAST_OUT, MOST_BLAMES, MOST_TERM};

/// What a list is about.
#[derive(Clone, Debug)]
pub struct Head {
    pub f: u8,
    pub term: u32,
    /// How many cards have a record, a book and masks.
    pub cards: usize,
    /// Bit i: card i is meant to be sound.
    pub sound: u16,
    /// What sound cards are opened with.
    pub rotation: Rotation,
}

impl Head {
    /// The rotation as open is lent it.
    pub fn seats(&self) -> &[u8] {
        seats(&self.rotation, self.f)
    }

    pub fn leader(&self, round: u32) -> u8 {
        leader(round, self.f, &self.rotation)
    }

    /// Whether there is no smaller term, or no larger one.
    pub fn term_at_edge(&self) -> bool {
        self.term == 1 || self.term == MOST_TERM
    }
}

#[derive(Clone, Debug)]
pub enum What {
    /// With the rotation.
    Open(Setup, Vec<u8>),
    Branch(Vec<u8>),
    Blame(Vec<u8>),
    Blames(Vec<u8>),
    Tick,
    Equivocation(Vec<u8>),
    Read(u32),
    Fetch(u32),
    Digest(Vec<u8>),
}

/// One call at one card.
#[derive(Clone, Debug)]
pub struct Call {
    pub card: usize,
    pub what: What,
    /// A record that no call made, instead of the card's.
    pub record: Option<Record>,
    pub log_len: usize,
    pub masks_len: usize,
    pub entry: Vec<u8>,
    pub out_len: usize,
    /// What was changed in the call to make it odd.
    pub changes: Vec<(&'static str, &'static str)>,
}

/// A state that no call made.
#[derive(Clone, Debug)]
pub struct State {
    pub record: Record,
    pub log: Vec<u8>,
    pub masks: Vec<u16>,
}

#[derive(Clone, Debug)]
pub enum Step {
    Call(Call),
    /// The host writes a card's state by itself.
    Write(usize, State),
}

#[derive(Clone, Debug)]
pub struct List {
    pub head: Head,
    pub steps: Vec<Step>,
}

impl Call {
    /// A call with buffers of the right sizes and an empty entry.
    pub fn new(head: &Head, card: usize, what: What) -> Call {
        Call {
            card,
            what,
            record: None,
            log_len: SIZE * head.term as usize,
            masks_len: head.term as usize,
            entry: Vec::new(),
            out_len: LEAST_OUT,
            changes: Vec::new(),
        }
    }

    /// The word for the call.
    pub fn word(&self) -> &'static str {
        match self.what {
            What::Open(..) => "open",
            What::Branch(_) => "branch",
            What::Blame(_) => "blame",
            What::Blames(_) => "blames",
            What::Tick => "tick",
            What::Equivocation(_) => "equivocation",
            What::Read(_) => "read",
            What::Fetch(_) => "fetch",
            What::Digest(_) => "digest",
        }
    }

    /// A number from the call's own bytes, the same in every list that has the call.
    pub fn seed(&self) -> u64 {
        let given = self.given().iter().rev();
        let bytes = self.entry.iter().take(8).chain(given.take(8));
        let height = match self.what {
            What::Read(height) | What::Fetch(height) => u64::from(height),
            _ => 0,
        };
        let start = (self.card + self.out_len + self.log_len) as u64 + height;
        bytes.fold(start, |seed, byte| {
            seed.wrapping_mul(0x100_0000_01b3) ^ u64::from(*byte)
        })
    }

    /// The bytes that only this call is lent: frames, or open's rotation.
    pub fn given(&self) -> &[u8] {
        match &self.what {
            What::Open(_, rotation) => rotation,
            _ => self.handed(),
        }
    }

    /// The bytes lent for frames.
    pub fn handed(&self) -> &[u8] {
        match &self.what {
            What::Branch(bytes) | What::Blame(bytes) => bytes,
            What::Blames(bytes) | What::Equivocation(bytes) => bytes,
            _ => &[],
        }
    }

    /// The lengths of log and masks, as far as the call is lent them.
    pub fn lengths(&self) -> (Option<usize>, Option<usize>) {
        match self.what {
            What::Equivocation(_) => (None, None),
            What::Read(_) | What::Fetch(_) => (Some(self.log_len), None),
            _ => (Some(self.log_len), Some(self.masks_len)),
        }
    }

    /// Whether the card's own record is lent, and of its log and masks what the call takes, whole.
    pub fn lends_all(&self, term: u32) -> bool {
        let (term, (log, masks)) = (term as usize, self.lengths());
        self.record.is_none()
            && log.is_none_or(|log| log == SIZE * term)
            && masks.is_none_or(|masks| masks == term)
    }

    pub fn is_set_of_one(&self) -> bool {
        matches!(&self.what, What::Blames(bytes) if bytes.len() == SIZE)
    }

    /// The frames handed in, whatever the call answers; a buffer that is cut hands in none.
    pub fn frames(&self, term: u32) -> &[Frame] {
        let allowed = match self.what {
            What::Branch(_) => 1..=term as usize,
            What::Blames(_) => 1..=MOST_BLAMES,
            What::Equivocation(_) => 2..=2,
            _ => 1..=1,
        };
        whole_frames(self.handed(), allowed).unwrap_or(&[])
    }
}
