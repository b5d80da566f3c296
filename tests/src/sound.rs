//! Who is sound, judged from the calls themselves, and which frames are forged: those with a right
//! check that name a sound signer which had not put them out.

use std::collections::HashSet;

use crate::call::{Call, Head, What};
use crate::frame::{self, Frame, Name};
use crate::model::{seats, slots, Answer, Rotation};

/// Why a card is no longer sound.
pub type Fault = &'static str;

pub struct Sound {
    f: u8,
    term: u32,
    rotation: Rotation,
    /// Cards that have been sound so far, and those of them that are open.
    cards: u16,
    open: u16,
    /// Names of all frames that sound cards put out.
    put_out: HashSet<Name>,
}

impl Sound {
    pub fn new(head: &Head) -> Sound {
        Sound {
            f: head.f,
            term: head.term,
            rotation: head.rotation,
            cards: head.sound,
            open: 0,
            put_out: HashSet::new(),
        }
    }

    /// Bit i: card i has been sound so far.
    pub fn cards(&self) -> u16 {
        self.cards
    }

    /// Bit i: card i is open, too.
    pub fn open(&self) -> u16 {
        self.open
    }

    pub fn is_sound(&self, card: usize) -> bool {
        card < 16 && self.cards >> card & 1 == 1
    }

    pub fn is_open(&self, card: usize) -> bool {
        card < 16 && self.open >> card & 1 == 1
    }

    pub fn is_forged(&self, frame: &Frame) -> bool {
        self.is_sound(usize::from(frame::signer(frame)))
            && !self.put_out.contains(frame::name(frame))
            && frame::check_is_right(frame)
    }

    fn drop(&mut self, card: usize) {
        self.cards &= !(1 << card);
        self.open &= !(1 << card);
    }

    /// A card is lent what no call left; a fault if it was open and sound.
    pub fn lent_other(&mut self, card: usize) -> Option<Fault> {
        let was_open = self.is_open(card);
        self.drop(card);
        was_open.then_some("a sound card's state was written")
    }

    /// What a call shows before it is made.
    pub fn before(&mut self, call: &Call) -> Option<Fault> {
        if call.record.is_some() {
            return self.lent_other(call.card);
        }
        if !self.is_open(call.card) && !matches!(call.what, What::Open(..) | What::Digest(_)) {
            self.drop(call.card);
        }
        None
    }

    /// Notes what a call at a card came to.
    pub fn after(&mut self, call: &Call, answer: &Answer, out: &[u8]) -> Option<Fault> {
        if !self.is_sound(call.card) {
            return None;
        }
        let fault = self.opened(call, answer);
        match fault {
            Some(_) => self.drop(call.card),
            None => {
                let frames = &slots(out)[..usize::from(answer.frames)];
                self.put_out.extend(frames.iter().map(frame::name));
            }
        }
        fault
    }

    /// An open that was taken is a sound card's first and has what they all share.
    fn opened(&mut self, call: &Call, answer: &Answer) -> Option<Fault> {
        let (What::Open(setup, rotation), 0) = (&call.what, answer.number) else {
            return None;
        };
        if self.is_open(call.card) {
            return Some("a sound card was opened twice");
        }
        if usize::from(setup.own) != call.card || (setup.f, setup.term) != (self.f, self.term) {
            return Some("a sound card was opened with other numbers");
        }
        if *rotation != seats(&self.rotation, self.f) {
            return Some("a sound card was opened with another rotation");
        }
        self.open |= 1 << call.card;
        None
    }
}
