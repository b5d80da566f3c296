//! Long mixed lists of calls, each made from a seed.

use crate::cabinet::Cabinet;
use crate::call::{Call, Head, Step};
use crate::model::{cards, in_turn, Rotation};
use crate::rng::Rng;
use crate::runner::{Outcome, Side};
use crate::wild::Wild;

/// The source of one list.
pub enum Maker {
    /// A run of cards; true if the premises of the claims are to hold in it.
    Cabinet(Box<Cabinet>, bool),
    Wild(Box<Wild>),
}

/// How large a list's cards may be.
#[derive(Clone, Copy, PartialEq, Eq)]
pub enum Sizes {
    All,
    /// At most f = 2 and T = 8.
    Small,
}

impl Maker {
    pub fn new(seed: u64, sizes: Sizes) -> Maker {
        let mut rng = Rng::new(seed.wrapping_mul(0xd134_2543_de82_ef95) ^ 0x5bf0_3635);
        let f = choose_f(&mut rng, sizes);
        let term = choose_term(&mut rng, sizes);
        let rotation = choose_rotation(&mut rng, f);
        let kind = rng.below(if term > 1_024 { 50 } else { 100 });
        if kind < 25 {
            let head = Head {
                f,
                term,
                cards: 1,
                sound: 0,
                rotation,
            };
            return Maker::wild(rng, head, sizes);
        }
        let strict = kind < 72;
        let n = cards(f) as usize;
        let all = ((1u32 << n) - 1) as u16;
        let (sound, makers) = choose_sides(&mut rng, f, all, strict);
        let head = Head {
            f,
            term,
            cards: n,
            sound,
            rotation,
        };
        let most = match (sizes, term) {
            (Sizes::Small, _) => 120,
            (_, 0..=256) => 2_500,
            _ => 1_200,
        };
        let steps = most.min(5 * n * term as usize + 60);
        let mut cabinet = Cabinet::new(rng, head, strict, makers, steps);
        if sizes == Sizes::All {
            cabinet = cabinet.with_lawful_maker();
        }
        Maker::Cabinet(Box::new(cabinet), strict)
    }

    fn wild(rng: Rng, head: Head, sizes: Sizes) -> Maker {
        let steps = match (sizes, head.term) {
            (Sizes::Small, _) => 16,
            (_, 257..) => 150,
            _ => 400,
        };
        Maker::Wild(Box::new(Wild::new(rng, head, steps)))
    }

    pub fn head(&self) -> &Head {
        match self {
            Maker::Cabinet(cabinet, _) => cabinet.head(),
            Maker::Wild(wild) => wild.head(),
        }
    }

    /// Whether the premises of the claims are to hold to the end.
    pub fn is_strict(&self) -> bool {
        matches!(self, Maker::Cabinet(_, true))
    }

    pub fn next(&mut self, sides: &[Side]) -> Option<Step> {
        match self {
            Maker::Cabinet(cabinet, _) => cabinet.next(sides),
            Maker::Wild(wild) => wild.next(sides),
        }
    }

    pub fn learn(&mut self, call: &Call, outcome: &Outcome, out: &[u8]) {
        if let Maker::Cabinet(cabinet, _) = self {
            cabinet.learn(call, outcome, out);
        }
    }
}

fn choose_f(rng: &mut Rng, sizes: Sizes) -> u8 {
    match (sizes, rng.below(100)) {
        (Sizes::Small, number) => 1 + (number % 2) as u8,
        (_, 0..=39) => 1,
        (_, 40..=64) => 2,
        (_, 65..=76) => 3,
        _ => rng.within(4, 7) as u8,
    }
}

fn choose_term(rng: &mut Rng, sizes: Sizes) -> u32 {
    if sizes == Sizes::Small {
        return rng.within(1, 8);
    }
    match rng.below(1000) {
        0..=149 => rng.within(1, 4),
        150..=599 => rng.within(5, 12),
        600..=899 => rng.within(13, 40),
        900..=984 => rng.within(41, 128),
        985..=993 => rng.within(129, 1_024),
        994..=996 => rng.within(1_025, 4_095),
        _ => 4_096,
    }
}

/// The old turn or any other.
fn choose_rotation(rng: &mut Rng, f: u8) -> Rotation {
    let mut rotation = in_turn(f);
    if rng.chance(85) {
        rng.shuffle(&mut rotation[..cards(f) as usize]);
    }
    rotation
}

/// The sound cards and the cards whose frames are made up.
fn choose_sides(rng: &mut Rng, f: u8, all: u16, strict: bool) -> (u16, u16) {
    let mut faulty = 0;
    for _ in 0..rng.within(0, f.into()) {
        faulty |= 1 << rng.bit(all);
    }
    if strict {
        return (all & !faulty, faulty);
    }
    match rng.below(3) {
        // Anyone's frames are forged.
        0 => (all & !faulty, all),
        // Too many faulty cards.
        1 => {
            let sound = 1 << rng.bit(all) | 1 << rng.bit(all);
            (sound, all & !sound)
        }
        // Sound leaders may be blamed.
        _ => (all & !faulty, faulty),
    }
}
