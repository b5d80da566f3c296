//! Cards that are called one by one, and the frames that the tests share.

use beside::call::{Call, Head, State, Step, What};
use beside::catch_up::{Card, CatchUp, Reply};
use beside::coverage::Coverage;
use beside::frame::{blame, block, name, Frame, GENESIS, SIZE};
use beside::library::Library;
use beside::model::{in_turn, line_above, seats, Record, Setup};
use beside::runner::{Runner, Side};

pub const FORGED: Option<&str> = Some("a frame was forged");

pub fn pair(frames: [Frame; 2]) -> What {
    What::Equivocation(frames.as_flattened().to_vec())
}

/// Two blocks that name a signer, on the genesis.
pub fn double(signer: u8, round: u32) -> [Frame; 2] {
    [b"1", b"2"].map(|entry| block(signer, round, 1, &GENESIS, entry))
}

pub fn head(sound: u16) -> Head {
    Head {
        f: 1,
        term: 8,
        cards: 3,
        sound,
        rotation: in_turn(1),
    }
}

/// Card 0 is dead: the others blame rounds 1 and 4, and put out blocks for rounds 2, 3 and 5.
pub fn beside_a_dead_card() -> Vec<Call> {
    let open = |own| {
        let setup = Setup {
            own,
            f: 1,
            wait: 1,
            term: 8,
        };
        What::Open(setup, seats(&in_turn(1), 1).to_vec())
    };
    let hear = |signer, round| What::Blame(blame(signer, round).to_vec());
    let second = block(1, 2, 1, &GENESIS, b"");
    let third = block(2, 3, 2, name(&second), b"");
    let calls = [
        (1, open(1)),
        (2, open(2)),
        (1, What::Tick),
        (2, What::Tick),
        (1, hear(2, 1)),
        (2, hear(1, 1)),
        (2, What::Branch(second.to_vec())),
        (1, What::Branch(third.to_vec())),
        (1, What::Tick),
        (2, What::Tick),
        (1, hear(2, 4)),
    ];
    let call = |(card, what)| Call::new(&head(0), card, what);
    calls.into_iter().map(call).collect()
}

/// What a host writes that leaves a card's state as it is.
pub fn written(side: &Side) -> State {
    State {
        record: side.record,
        log: side.log.part(SIZE * 8).to_vec(),
        masks: side.masks.part(8).to_vec(),
    }
}

/// Calls of several cards, with one library on both sides.
pub struct Cards<'l> {
    pub head: Head,
    pub library: &'l dyn Library,
    pub runner: Runner<'l>,
}

impl<'l> Cards<'l> {
    /// Opens some cards with a wait of one tick.
    pub fn open(f: u8, cards: &[u8], sound: u16, library: &'l dyn Library) -> Cards<'l> {
        let head = Head {
            f,
            term: 8,
            cards: 2 * usize::from(f) + 1,
            sound,
            rotation: in_turn(f),
        };
        let mut opened = Cards {
            runner: Runner::beside(library, library, &head),
            library,
            head,
        };
        for &own in cards {
            let setup = Setup {
                own,
                f,
                wait: 1,
                term: 8,
            };
            let seats = opened.head.seats().to_vec();
            assert_eq!(opened.step(own.into(), What::Open(setup, seats)), 0);
        }
        opened
    }

    /// Makes a call; its number.
    pub fn step(&mut self, card: usize, what: What) -> u8 {
        let told = self.told(card, what);
        told.expect("one library on both sides")
    }

    /// Makes a call; its number, or the claim that failed.
    pub fn told(&mut self, card: usize, what: What) -> Result<u8, String> {
        let step = Step::Call(Call::new(&self.head, card, what));
        let outcome = self.runner.step(&step, &mut Coverage::new())?;
        Ok(outcome.number().expect("a number"))
    }

    /// A card's host writes its state as it is.
    pub fn write(&mut self, card: usize) {
        let state = written(&self.runner.sides()[card]);
        let step = self
            .runner
            .step(&Step::Write(card, state), &mut Coverage::new());
        assert!(step.is_ok());
    }

    pub fn marks(&self, card: usize) -> u16 {
        self.runner.sides()[card].record.equivocators
    }

    pub fn branch(&mut self, card: usize, frames: &[Frame]) -> u8 {
        self.step(card, What::Branch(frames.as_flattened().to_vec()))
    }

    pub fn blames(&mut self, card: usize, round: u32, signers: &[u8]) -> u8 {
        let frames: Vec<_> = signers.iter().map(|&card| blame(card, round)).collect();
        self.step(card, What::Blames(frames.into_flattened()))
    }

    pub fn round(&self, card: usize) -> u32 {
        self.runner.sides()[card].record.round
    }

    /// A card's line above a height.
    pub fn line(&self, card: usize, height: u32) -> Vec<Frame> {
        let log = self.runner.sides()[card].log.part(SIZE * 8);
        line_above(log, height).copied().collect()
    }

    pub fn record(&self, card: usize) -> Record {
        self.runner.sides()[card].record
    }

    fn card(&self, number: usize) -> Card<'_> {
        Card {
            number,
            side: &self.runner.sides()[number],
        }
    }

    pub fn between(&self, taker: usize, giver: usize) -> CatchUp<'_> {
        let catch_up = CatchUp::new(self.library, self.card(taker), self.card(giver));
        catch_up.expect("frames for the taker")
    }

    /// Hands a copy of the taker the first frames that a giver has for it.
    pub fn hand_in(&self, taker: usize, giver: usize, count: usize) -> Result<Reply, String> {
        self.between(taker, giver).hand_in(count)
    }

    /// Hands a copy of the taker what a giver had above the height that the taker had committed.
    pub fn hand_in_earlier(
        &self,
        [taker, giver]: [usize; 2],
        had: &Record,
        line: &[Frame],
    ) -> Result<Reply, String> {
        let cards = [taker, giver].map(|card| self.card(card));
        let earlier = CatchUp::earlier(self.library, cards, had, line);
        let earlier = earlier.expect("frames for the taker");
        earlier.hand_in(earlier.frames().len())
    }

    /// The premise that failed, and what the end of the list comes to.
    pub fn end(&self) -> (Option<&'static str>, Result<(), String>) {
        let end = self.runner.end(&mut Coverage::new());
        (self.runner.claims.broken(), end)
    }
}

pub const HOLDS: (Option<&str>, Result<(), String>) = (None, Ok(()));
