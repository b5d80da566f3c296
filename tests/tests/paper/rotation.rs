//! The rotation: what is refused as none, who leads, proposes and signs.

use beside::frame::{self, blame, block, Frame, GENESIS};
use beside::library::under_test;
use beside::model::{Answer, Record};

use crate::common::{double, numbers, padded, seat, set, shuffled, told, turn, Card, FINE};

/// A rotation by its definition: each card below n, once.
fn seats_all(seats: &[u8], f: u8) -> bool {
    let mut sorted = seats.to_vec();
    sorted.sort();
    sorted == turn(f)
}

/// Every list of numbers below `end`, from empty ones to `length`.
fn lists(end: u8, length: usize) -> Vec<Vec<u8>> {
    let mut all = vec![Vec::new()];
    let mut from = 0;
    for _ in 0..length {
        let to = all.len();
        for index in from..to {
            for number in 0..end {
                let mut longer = all[index].clone();
                longer.push(number);
                all.push(longer);
            }
        }
        from = to;
    }
    all
}

/// f = 1: all of up to five numbers below 5; f = 2: all of five numbers below 6.
#[test]
fn refusal_17_of_every_short_list() {
    let five = lists(6, 5).into_iter().filter(|seats| seats.len() == 5);
    let of_one = lists(5, 5).into_iter().map(|seats| (1, seats));
    let mut taken = [0; 3];
    for (f, seats) in of_one.chain(five.map(|seats| (2, seats))) {
        let mut card = Card::closed(1);
        if !seats_all(&seats, f) {
            assert_eq!(card.refused_seats(f, &seats), (17, 0), "{seats:?}");
            continue;
        }
        let answer = card.try_seats(0, f, 1, 1, &seats);
        assert_eq!(told(answer), (0, 0), "{seats:?}");
        assert_eq!(answer.record.rotation, padded(&seats));
        taken[usize::from(f)] += 1;
    }
    assert_eq!(taken, [0, 6, 120]);
}

#[test]
fn refusal_17_of_another_length() {
    for f in 1..=7 {
        let (good, mut card) = (shuffled(f, 1), Card::closed(2));
        let n = good.len();
        assert_eq!(card.refused_seats(f, &[]), (17, 0));
        for seat in 0..n {
            let mut seats = good.clone();
            seats.remove(seat);
            assert_eq!(card.refused_seats(f, &seats), (17, 0), "one short");
        }
        for last in [0, n as u8 - 1, n as u8, 255] {
            let mut seats = good.clone();
            seats.push(last);
            assert_eq!(card.refused_seats(f, &seats), (17, 0), "one long");
        }
        for length in [n + 1, 15.max(n + 1), 16, 17, 32, 256, 256 + n, 65_536 + n] {
            let mut seats = good.clone();
            seats.resize(length, 0);
            assert_eq!(card.refused_seats(f, &seats), (17, 0), "{length} long");
        }
        assert_eq!(card.refused_seats(f, &good.repeat(2)), (17, 0));
    }
}

/// Every pair of seats alike; every number from n on in every seat, also one that a shift or a cast would take for the card.
#[test]
fn refusal_17_with_a_card_missing() {
    for f in 1..=7 {
        let (good, mut card) = (shuffled(f, 2), Card::closed(1));
        let n = good.len();
        for seat in 0..n {
            for other in (0..n).filter(|&other| other != seat) {
                let mut seats = good.clone();
                seats[seat] = seats[other];
                assert_eq!(card.refused_seats(f, &seats), (17, 0), "{seats:?}");
            }
            for number in n as u8..=255 {
                let mut seats = good.clone();
                seats[seat] = number;
                assert_eq!(card.refused_seats(f, &seats), (17, 0), "{seats:?}");
            }
            assert_eq!(card.refused_seats(f, &vec![seat as u8; n]), (17, 0));
        }
    }
}

/// Right after 1, before 4 and 5.
#[test]
fn refusal_17_in_its_place() {
    let bad: [&[u8]; 4] = [&[], &[0, 1], &[0, 1, 1], &[0, 1, 3]];
    for seats in bad {
        for (out, entry) in [(1024, 401), (1023, 0), (0, 401)] {
            let mut card = Card::closed(2);
            card.out = vec![0; out];
            card.entry = vec![0; entry];
            assert_eq!(card.refused_seats(1, seats), (17, 0));
            for (own, f, wait, term) in [(3, 1, 1, 2), (0, 0, 1, 2), (0, 1, 0, 2), (0, 1, 1, 3)] {
                let answer = card.try_seats(own, f, wait, term, seats);
                assert_eq!((told(answer), answer.record), ((1, 0), Record::default()));
            }
            card.masks.push(0);
            assert_eq!(told(card.try_seats(0, 1, 1, 2, seats)), (1, 0));
        }
    }
    let mut card = Card::closed(2);
    (card.out, card.entry) = (Vec::new(), vec![0; 401]);
    assert_eq!(told(card.try_seats(0, 1, 1, 2, &[2, 0, 1])), (4, 0));
    card.out = vec![0; 1024];
    assert_eq!(told(card.try_seats(0, 1, 1, 2, &[2, 0, 1])), (5, 0));
}

/// f = 1 and 2: every list of numbers below n + 2 and n + 1.
#[test]
fn refusal_2_of_every_rotation_that_is_none() {
    let of_one = lists(5, 3).into_iter().map(|seats| (1, 3, seats));
    let of_two = lists(6, 5).into_iter().map(|seats| (2, 5, seats));
    for (f, n, seats) in of_one.chain(of_two) {
        if seats.len() == n {
            let expected = if seats_all(&seats, f) { FINE } else { [2; 7] };
            assert_eq!(numbers(f, padded(&seats), 0), expected, "{seats:?}");
        }
    }
}

#[test]
fn refusal_2_of_a_rotation_in_every_way() {
    for f in 1..=7 {
        let good = padded(&shuffled(f, 3));
        let n = 2 * usize::from(f) + 1;
        assert_eq!(numbers(f, good, 0), FINE);
        let refused = |seat: usize, number: u8| {
            let mut rotation = good;
            rotation[seat] = number;
            assert_eq!(numbers(f, rotation, 0), [2; 7], "{rotation:?}");
        };
        for seat in 0..n {
            let alike = (0..n).filter(|&other| other != seat);
            alike.for_each(|other| refused(seat, good[other]));
            let card = good[seat];
            let aliens = [
                n as u8,
                15,
                16,
                255,
                card | 16,
                card | 32,
                card | 64,
                card | 128,
            ];
            aliens.into_iter().for_each(|number| refused(seat, number));
        }
        for past in n..15 {
            let numbers = [1, n as u8 - 1, n as u8, 255];
            numbers.into_iter().for_each(|number| refused(past, number));
        }
    }
}

/// Each round of two turns, each card: it leads the round that it waits for by its seat.
#[test]
fn refusal_2_where_the_card_leads_by_its_seat() {
    for f in [1, 2, 7] {
        let (seats, last) = (shuffled(f, 4), 4 * u32::from(f) + 2);
        for (round, own) in
            (1..=last).flat_map(|round| turn(f).into_iter().map(move |own| (round, own)))
        {
            let mut card = Card::made(own, f, last, &[], round);
            card.record.rotation = padded(&seats);
            let expected = if seat(&seats, round) == own {
                (2, 2, 2)
            } else {
                (0, 15, 0)
            };
            let (tick, read) = (card.tick().number, card.read(1).number);
            let marked = card.equivocation(&double(seats[0], 1));
            assert_eq!((tick, read, marked.number), expected);
        }
    }
}

/// Each round of two turns, each signer: the block of the seat's card is taken, any other is 8.
#[test]
fn a_blocks_signer_is_its_seats_card() {
    for f in [1, 2, 7] {
        let (seats, last) = (shuffled(f, 5), 4 * u32::from(f) + 2);
        for round in 1..=last {
            let lead = seat(&seats, round);
            let own = turn(f)
                .into_iter()
                .find(|own| ![lead, seats[0]].contains(own));
            let mut made = Card::made(own.expect("three cards"), f, last, &[], 1);
            made.record.rotation = padded(&seats);
            made.masks.fill(u16::MAX);
            let record = made.record;
            let n = seats.len() as u8;
            for signer in (0..=n).rev().chain([15, 16, 255, lead | 16, lead | 32]) {
                let block = block(signer, round, 1, &GENESIS, b"");
                let answer = under_test().branch(record, &block, made.lend());
                let number = if signer == lead { 0 } else { 8 };
                assert_eq!(told(answer), (number, 0), "round {round}, signer {signer}");
            }
        }
    }
}

/// A card has entered a round, and proposes if it has the round's seat; its block.
fn entered(card: &Card, answer: Answer, round: u32, seats: &[u8]) -> Option<Frame> {
    let Record { own, term, .. } = card.record;
    let lead = |round| {
        if round <= term {
            seat(seats, round)
        } else {
            255
        }
    };
    let expected = match lead(round) == own {
        true => (1, round + 1, lead(round + 1)),
        false => (0, round, lead(round)),
    };
    assert_eq!(
        (answer.frames, answer.record.round, answer.leader),
        expected
    );
    assert_eq!((answer.number, answer.record.rotation), (0, padded(seats)));
    (answer.frames == 1).then(|| *card.out_frame(0))
}

/// A cabinet from the opening on, for three turns.
#[test]
fn the_card_on_the_seat_proposes() {
    for (f, seed) in (1..=7).flat_map(|f| [(f, 6), (f, 7), (f, 8)]) {
        let seats = shuffled(f, seed);
        let term = 3 * seats.len() as u32;
        let (mut cards, mut blocks) = (Vec::new(), Vec::new());
        for own in turn(f) {
            let mut card = Card::closed(term);
            let answer = card.try_seats(own, f, 1, term, &seats);
            card.keep(answer);
            blocks.extend(entered(&card, answer, 1, &seats));
            cards.push(card);
        }
        for round in 1..=term {
            let block = blocks[round as usize - 1];
            let signer = frame::signer(&block);
            for card in cards.iter_mut().filter(|card| card.record.own != signer) {
                let answer = card.branch(&[block]);
                blocks.extend(entered(card, answer, round + 1, &seats));
            }
        }
        let signers: Vec<u8> = blocks.iter().map(frame::signer).collect();
        assert_eq!(signers, seats.repeat(3));
    }
}

/// The leader of each round of three turns as a card tells it, itself where it proposes. Each round but its own is passed over.
fn leaders(own: u8, f: u8, seats: &[u8]) -> Vec<u8> {
    let term = 3 * seats.len() as u32;
    let mut card = Card::closed(term);
    let mut leaders = Vec::new();
    let mut answer = card.try_seats(own, f, 1, term, seats);
    loop {
        card.keep(answer);
        assert_eq!((answer.number, card.record.rotation), (0, padded(seats)));
        leaders.extend((answer.frames > 0).then_some(own));
        if card.record.round > term {
            return leaders;
        }
        leaders.push(answer.leader);
        answer = card.blames(&set(card.record.round, &turn(f)[..=usize::from(f)]));
    }
}

/// f = 1 and 2: every rotation. n rounds in a row, so f + 1 too, have different leaders.
#[test]
fn the_leaders_told_are_the_seats() {
    let every = |n: u8| lists(n, n.into()).into_iter();
    let of_one = every(3)
        .filter(|seats| seats_all(seats, 1))
        .map(|seats| (1, seats));
    let of_two = every(5)
        .filter(|seats| seats_all(seats, 2))
        .map(|seats| (2, seats));
    let others = (3..=7).flat_map(|f| [9, 10, 11].map(|seed| (f, shuffled(f, seed))));
    for (f, seats) in of_one.chain(of_two).chain(others) {
        for own in turn(f) {
            let leaders = leaders(own, f, &seats);
            assert_eq!(leaders, seats.repeat(3));
            for in_a_row in leaders.windows(seats.len()) {
                assert!(seats_all(in_a_row, f), "{in_a_row:?}");
            }
        }
    }
}

/// Signers of blames are below n, whatever their seats.
#[test]
fn a_blames_signer_has_any_seat() {
    for (signer, number) in [(0, 0), (1, 0), (2, 0), (3, 8)] {
        let mut card = Card::seated(0, 1, 1, 6, &[2, 0, 1]);
        assert_eq!(told(card.blame(&blame(signer, 1))), (number, 0));
        let mut card = Card::seated(0, 1, 1, 6, &[2, 0, 1]);
        assert_eq!(told(card.blames(&[blame(signer, 1)])), (number, 0));
    }
}
