//! The program rehearse over the model: the same commands, the same lines. For the expected output
//! of the rehearsals in examples/ and of random lists.

use std::collections::VecDeque;
use std::io::{self, BufRead, Write};

use beside::frame::{self, Frame, SIZE};
use beside::model::{self, in_turn, seats, Answer, Lent, Record, Setup};

const CARDS: usize = 3;
const TERM: usize = 6;

struct Card {
    record: Record,
    log: Vec<u8>,
    masks: Vec<u16>,
    queue: VecDeque<Frame>,
}

fn main() -> io::Result<()> {
    let mut cards: Vec<Card> = (0..CARDS).map(|_| closed()).collect();
    for own in 0..CARDS {
        let setup = Setup {
            own: own as u8,
            f: 1,
            wait: 2,
            term: TERM as u32,
        };
        let rotation = in_turn(setup.f);
        call(&mut cards, own, |_, lent| {
            model::open(setup, seats(&rotation, setup.f), lent)
        });
    }
    let mut out = io::stdout().lock();
    for (line, number) in io::stdin().lock().split(b'\n').zip(1..) {
        let line = line?;
        let line = line.strip_suffix(b"\r").unwrap_or(&line);
        let answer = match line {
            [b't', b' ', i @ b'0'..=b'2'] => Some((i - b'0', tick(&mut cards, i - b'0'))),
            [b'd', b' ', i @ b'0'..=b'2'] => {
                deliver(&mut cards, i - b'0').map(|answer| (i - b'0', answer))
            }
            _ => {
                eprintln!("line {number}: no command");
                None
            }
        };
        if let Some((i, Answer { number, record, .. })) = answer {
            let (round, tip, committed) = (record.round, record.tip_round, record.committed_round);
            writeln!(out, "{i} {number} {round} {tip} {committed}")?;
        }
    }
    Ok(())
}

fn closed() -> Card {
    Card {
        record: Record::default(),
        log: vec![0; SIZE * TERM],
        masks: vec![0; TERM],
        queue: VecDeque::new(),
    }
}

/// Makes a call at a card, keeps its record and puts its frames on the cables to the others.
fn call(cards: &mut [Card], at: usize, step: impl FnOnce(Record, Lent) -> Answer) -> Answer {
    let mut out = vec![0; 2 * SIZE];
    let card = &mut cards[at];
    let lent = Lent {
        log: &mut card.log,
        masks: &mut card.masks,
        entry: &[],
        out: &mut out,
    };
    let answer = step(card.record, lent);
    card.record = answer.record;
    for frame in &model::slots(&out)[..usize::from(answer.frames)] {
        for (_, other) in cards.iter_mut().enumerate().filter(|(i, _)| *i != at) {
            other.queue.push_back(*frame);
        }
    }
    answer
}

fn tick(cards: &mut [Card], at: u8) -> Answer {
    call(cards, usize::from(at), model::tick)
}

fn deliver(cards: &mut [Card], at: u8) -> Option<Answer> {
    let at = usize::from(at);
    let frame = cards[at].queue.pop_front()?;
    Some(call(cards, at, |record, lent| {
        if frame::kind(&frame) == frame::BLOCK {
            model::branch(record, &frame, lent)
        } else {
            model::blame(record, &frame, lent)
        }
    }))
}
