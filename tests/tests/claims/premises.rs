//! Which frames the premises count: those of a buffer that is not cut, whatever the call answers. Which rotations they allow.

use beside::call::{Call, Head, Step, What};
use beside::coverage::Coverage;
use beside::frame::{blame, Frame, SIZE};
use beside::library::Model;
use beside::model::{in_turn, Rotation, Setup};
use beside::runner::Runner;

use crate::common::{double, pair, FORGED};

fn three_sound() -> Head {
    Head {
        f: 1,
        term: 4,
        cards: 3,
        sound: 0b111,
        rotation: in_turn(1),
    }
}

/// The premise that breaks when frames go to card 1, and the answer to them.
fn hand_in(what: What, out_len: usize) -> (Option<&'static str>, u8) {
    let head = three_sound();
    let mut runner = Runner::new(&Model, &head);
    let mut coverage = Coverage::new();
    let setup = Setup {
        own: 1,
        f: 1,
        wait: 1,
        term: 4,
    };
    let open = Call::new(&head, 1, What::Open(setup, head.seats().to_vec()));
    let mut call = Call::new(&head, 1, what);
    call.out_len = out_len;
    let mut number = 0;
    for call in [open, call] {
        let outcome = runner.step(&Step::Call(call), &mut coverage);
        let outcome = outcome.expect("the model is itself");
        number = outcome.number().expect("an answer");
    }
    (runner.claims.broken(), number)
}

fn set(frames: &[Frame], length: usize) -> What {
    let mut bytes = frames.as_flattened().repeat(16);
    bytes.truncate(length);
    What::Blames(bytes)
}

#[test]
fn forged_blames_of_a_whole_set_count_whatever_is_answered() {
    let forged = [blame(2, 1), blame(0, 1)];
    let expected = [
        (0, forged, 2 * SIZE, 1024),
        (4, forged, 2 * SIZE, 1023),
        (14, [blame(0, 2), blame(2, 2)], 2 * SIZE, 1024),
        (16, forged, 3 * SIZE, 1024),
        (16, forged, 15 * SIZE, 1024),
    ];
    for (number, frames, length, out_len) in expected {
        let told = hand_in(set(&frames, length), out_len);
        assert_eq!(told, (FORGED, number), "{length} bytes");
    }
    let alien = [blame(3, 1), blame(0, 1)];
    assert_eq!(hand_in(set(&alien, 2 * SIZE), 1024), (FORGED, 8));
}

#[test]
fn a_cut_buffer_hands_in_nothing() {
    let forged = [blame(2, 1), blame(0, 1)];
    for length in [0, 511, 513, 2 * SIZE + 1, 15 * SIZE + 1, 16 * SIZE] {
        assert_eq!(hand_in(set(&forged, length), 1024), (None, 6));
        assert_eq!(hand_in(set(&forged, length), 1023), (None, 4));
    }
    let two = forged.as_flattened().to_vec();
    assert_eq!(hand_in(What::Blame(two), 1024), (None, 6));
    let five = blame(0, 1).repeat(5);
    assert_eq!(hand_in(What::Branch(five), 1024), (None, 6), "more than T");
}

#[test]
fn a_wrong_check_forges_nothing() {
    let mut frames = [blame(2, 1), blame(3, 1)];
    frames[0][511] ^= 1;
    assert_eq!(hand_in(set(&frames, 2 * SIZE), 1024), (None, 7));
}

#[test]
fn forged_blocks_of_a_pair_count_whatever_is_answered() {
    let [one, other] = double(0, 1);
    let mut damaged = other;
    damaged[511] ^= 1;
    let expected = [
        (0, [one, other]),
        (18, [one, one]),
        (18, [one, double(1, 2)[0]]),
        (7, [one, damaged]),
        (7, [damaged, one]),
        (8, double(0, 2)),
        (8, double(2, 1)),
        (8, [blame(0, 1), blame(2, 1)]),
        (8, [blame(3, 1), one]),
    ];
    for (number, frames) in expected {
        assert_eq!(hand_in(pair(frames), 1024), (FORGED, number));
    }
    assert_eq!(hand_in(pair([damaged, damaged]), 1024), (None, 7));
    assert_eq!(hand_in(pair(double(3, 1)), 1024), (None, 8), "nobody's");
}

/// One whole frame, or three, may be a branch or a set, never a pair.
#[test]
fn a_pair_of_another_length_hands_in_nothing() {
    let forged = double(0, 1).as_flattened().repeat(2);
    for length in [0, 1, 511, 512, 513, 1023, 1025, 1536, 2048] {
        let cut = What::Equivocation(forged[..length].to_vec());
        assert_eq!(hand_in(cut, 1024), (None, 6), "{length} bytes");
    }
}

/// Cards 0 and 1 are opened, each with a rotation: the premise that breaks, and card 1's number.
fn open_both(sound: u16, rotations: [&[u8]; 2]) -> (Option<&'static str>, u8) {
    let mut rotation = Rotation::default();
    rotation[..3].copy_from_slice(&[2, 0, 1]);
    let head = Head {
        sound,
        rotation,
        ..three_sound()
    };
    let mut runner = Runner::new(&Model, &head);
    let mut number = 0;
    for (own, seats) in (0..).zip(rotations) {
        let setup = Setup {
            own,
            f: 1,
            wait: 1,
            term: 4,
        };
        let open = Call::new(&head, own.into(), What::Open(setup, seats.to_vec()));
        let outcome = runner.step(&Step::Call(open), &mut Coverage::new());
        let outcome = outcome.expect("the model is itself");
        number = outcome.number().expect("an answer");
    }
    (runner.claims.broken(), number)
}

#[test]
fn sound_cards_share_the_rotation() {
    let shared: &[u8] = &[2, 0, 1];
    assert_eq!(open_both(0b111, [shared, shared]), (None, 0));
    let other = Some("a sound card was opened with another rotation");
    assert_eq!(open_both(0b111, [shared, &[0, 1, 2]]), (other, 0));
    assert_eq!(open_both(0b111, [&[0, 1, 2], &[0, 1, 2]]), (other, 0));
    for refused in [&[2, 0][..], &[2, 0, 0], &[2, 0, 1, 1], &[]] {
        assert_eq!(open_both(0b111, [shared, refused]), (None, 17));
    }
    assert_eq!(open_both(0b101, [shared, &[0, 1, 2]]), (None, 0));
}
