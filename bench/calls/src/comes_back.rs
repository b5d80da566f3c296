//! A card that comes back: it was opened and heard nothing while the others passed 1,000 rounds; a neighbour has them all. Timed
//! on the library and on the Rust implementation, with the same buffers. Every answer is as expected and the same on both, and
//! in the end the card has the neighbour's R, log and committed round.

use crate::book::{book, entry};
use crate::card::{rotation, Card};
use crate::recipes::{come_back, Desk, Neighbour, Trip, Way};
use crate::{head, median, progress, ratio, time};
use beside::ffi::Archive;
use beside::frame::{self, SIZE};
use beside::library::{Library, Model};
use beside::model::{cards, seats, Setup};

pub const TERM: u32 = 4096;
pub const ROUNDS: u32 = 1000;
const PASSES: usize = 15;
/// The seat of the neighbour, and that of the card that comes back. Neither leads round 1,001.
const NEIGHBOUR: u32 = 0;
const AWAY: u32 = 2;

struct Case {
    name: &'static str,
    f: u8,
    /// How many cards from seat 2 on are dead, the card that comes back among them. None: it has lost its state.
    dead: u32,
}

const CASES: [Case; 3] = [
    Case {
        name: "no round skipped",
        f: 1,
        dead: 0,
    },
    Case {
        name: "1 of 3 dead",
        f: 1,
        dead: 1,
    },
    Case {
        name: "7 of 15 dead",
        f: 7,
        dead: 7,
    },
];

/// How the card comes back, with the frames of a tray. The tray matters to the fetches alone, but for the last two.
const RECIPES: [(Way, usize); 10] = [
    (Way::OneFrame, 1),
    (Way::WhenTold, 1000),
    (Way::ByPieces, 16),
    (Way::ByPieces, 1000),
    (Way::ByRuns, 2),
    (Way::ByRuns, 16),
    (Way::ByRuns, 64),
    (Way::ByRuns, 1000),
    (Way::ByTrays, 16),
    (Way::ByTrays, 64),
];

impl Case {
    fn is_dead(&self, seat: u32) -> bool {
        (AWAY..AWAY + self.dead).contains(&seat)
    }

    fn is_skipped(&self, round: u32) -> bool {
        self.is_dead((round - 1) % cards(self.f))
    }

    fn open(&self, seat: u32) -> Card {
        let rotation = rotation(self.f);
        let setup = Setup {
            own: rotation[seat as usize],
            f: self.f,
            wait: 1,
            term: TERM,
        };
        let mut card = Card::closed(TERM);
        let (answer, _) = card.call(&entry(1), |_, lent| {
            Archive.open(setup, seats(&rotation, self.f), lent)
        });
        assert_eq!(answer.number, 0, "open");
        card
    }

    /// The living cards' blames of a skipped round, f + 1; none of another.
    fn blames(&self, round: u32) -> Vec<u8> {
        let rotation = rotation(self.f);
        let blaming = |&seat: &u32| self.is_skipped(round) && !self.is_dead(seat);
        (0..cards(self.f))
            .filter(blaming)
            .flat_map(|seat| frame::blame(rotation[seat as usize], round))
            .collect()
    }

    /// The neighbour passes each round, by its block or by its blames, unless the block is its own.
    fn neighbour(&self) -> Neighbour {
        let log = book(self.f, ROUNDS, |round| self.is_skipped(round));
        let blames: Vec<_> = (1..=ROUNDS).map(|round| self.blames(round)).collect();
        let mut card = self.open(NEIGHBOUR);
        for ((block, set), round) in log.chunks_exact(SIZE).zip(&blames).zip(1..) {
            if card.record.round > round {
                continue;
            }
            let (answer, _) = card.call(&entry(round + 1), |record, lent| match set.is_empty() {
                true => Archive.branch(record, block, lent),
                false => Archive.blames(record, set, lent),
            });
            assert_eq!(answer.number, 0, "round {round}");
        }
        assert_eq!(card.record.round, ROUNDS + 1);
        assert!(card.log.starts_with(&log), "the neighbour's log");
        Neighbour { card, blames }
    }
}

/// The card, as it was opened, comes back and has what the neighbour has.
fn trip<L: Library>(library: &L, away: &Card, from: &Neighbour, way: Way, desk: &mut Desk) -> Trip {
    desk.card.become_like(away);
    let trip = come_back(library, from, way, desk);
    let (back, like) = (&desk.card, &from.card);
    assert_eq!(back.record.round, like.record.round, "R");
    assert_eq!(back.record.committed_round, like.record.committed_round);
    assert!(back.log == like.log && back.masks == like.masks, "buffers");
    trip
}

fn name(way: Way) -> &'static str {
    match way {
        Way::OneFrame => "one frame an exchange",
        Way::WhenTold => "one branch, again after each 13",
        Way::ByPieces => "pieces of 32, again after each 13",
        Way::ByRuns => "run by run",
        Way::ByTrays => "run by run, tray by tray",
    }
}

/// The median of what some trips took.
fn median_of(trips: &[Trip], seconds: impl Fn(&Trip) -> Option<f64>) -> Option<f64> {
    median(&trips.iter().filter_map(seconds).collect::<Vec<_>>())
}

fn row(case: &Case, from: &Neighbour, way: Way, tray: usize) -> Vec<String> {
    progress(&format!("{}, {}, {tray}", case.name, name(way)));
    let away = case.open(AWAY);
    let mut desk = Desk::new(case.open(AWAY), tray);
    let mut both = || {
        let ours = trip(&Archive, &away, from, way, &mut desk);
        let rust = trip(&Model, &away, from, way, &mut desk);
        assert_eq!(ours.answers, rust.answers, "{}", case.name);
        assert_eq!(ours.counts, rust.counts, "{}", case.name);
        (ours, rust)
    };
    let counts = both().0.counts;
    let (ours, rust): (Vec<Trip>, Vec<Trip>) = (0..PASSES).map(|_| both()).unzip();
    let [our_fetching, fetching] = [&ours, &rust].map(|trips| median_of(trips, |t| t.fetching));
    let [our_all, all] = [&ours, &rust].map(|trips| median_of(trips, |t| Some(t.all)));
    vec![
        format!("{}: {}", case.name, name(way)),
        tray.to_string(),
        counts.fetches.to_string(),
        counts.questions.to_string(),
        counts.sets.to_string(),
        counts.branches.to_string(),
        counts.digests.to_string(),
        time(our_fetching),
        ratio(fetching, our_fetching),
        time(our_all),
        ratio(all, our_all),
    ]
}

pub fn table() -> Vec<Vec<String>> {
    let mut rows = vec![head(
        "case: way, tray, fetches, questions, sets, branches, digests, fetching, beside Rust, all, beside Rust",
    )];
    for case in &CASES {
        let from = case.neighbour();
        rows.extend(RECIPES.map(|(way, tray)| row(case, &from, way, tray)));
    }
    progress("");
    rows
}
