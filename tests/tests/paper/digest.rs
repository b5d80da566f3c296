//! Published digests, the constants, and the digests of four frames at once.

use beside::frame::{self, Name, CHECK_AT, SIZE};
use beside::library::under_test;
use beside::model::slots;
use beside::rng::Rng;
use beside::sha256::K;

const FOUR: usize = 4 * SIZE;

fn hex(bytes: &[u8]) -> String {
    bytes.iter().map(|byte| format!("{byte:02x}")).collect()
}

#[test]
fn published_digests() {
    let long = b"abcdbcdecdefdefgefghfghighijhijkijkljklmklmnlmnomnopnopq";
    assert_eq!(long.len() * 8, 448);
    assert_eq!(
        hex(&under_test().digest(b"abc")),
        "ba7816bf8f01cfea414140de5dae2223b00361a396177a9cb410ff61f20015ad"
    );
    assert_eq!(
        hex(&under_test().digest(b"")),
        "e3b0c44298fc1c149afbf4c8996fb92427ae41e4649b934ca495991b7852b855"
    );
    assert_eq!(
        hex(&under_test().digest(long)),
        "248d6a61d20638b8e5c026930c3e6039a33ce45964ff2167f6ecedd419db06c1"
    );
    assert_eq!(
        hex(&under_test().digest(&vec![b'a'; 1_000_000])),
        "cdc76e5c9914fb9281a1c7e284d73e67f1809a48a497200e046d39ccc7112cd0"
    );
}

/// The constants are the first 32 bits of the fractions of the primes' cube roots.
#[test]
fn constants_from_cube_roots() {
    let is_prime = |n: &u128| (2..*n).all(|d| !n.is_multiple_of(d));
    for (prime, k) in (2u128..).filter(is_prime).zip(K) {
        let (mut low, mut high) = (0u128, 1 << 36);
        while high - low > 1 {
            let middle = (low + high) / 2;
            if middle * middle * middle <= prime << 96 {
                low = middle;
            } else {
                high = middle;
            }
        }
        assert_eq!(low as u32, k, "prime {prime}");
    }
}

/// The digest of each of four frames by itself.
fn alone(frames: &[u8]) -> Vec<Name> {
    slots(frames).iter().map(frame::digest).collect()
}

/// Each of four digests at once is that of its own frame by itself.
fn four_are_right(frames: &[u8], what: &str) {
    assert_eq!(under_test().digest4(frames)[..], alone(frames), "{what}");
}

/// The test above is one that crossed lanes fail, whichever two they are.
#[test]
fn crossed_lanes_are_found() {
    let frames = Rng::new(5).noise(FOUR);
    for (one, other) in (0..4).flat_map(|one| (0..one).map(move |other| (one, other))) {
        let mut crossed = frame::digest4(&frames);
        crossed.swap(one, other);
        assert_ne!(crossed[..], alone(&frames), "{one} and {other}");
    }
}

#[test]
fn four_frames_at_once() {
    let mut rng = Rng::new(4);
    four_are_right(&[0; FOUR], "zeros");
    four_are_right(&[255; FOUR], "255");
    for turn in 0..1_000 {
        let different = rng.noise(FOUR);
        four_are_right(&different, "different");
        let mut equal = different[..SIZE].repeat(4);
        four_are_right(&equal, "equal");
        let lane = SIZE * (turn % 4)..SIZE * (turn % 4 + 1);
        equal[lane.clone()].copy_from_slice(&different[SIZE..2 * SIZE]);
        four_are_right(&equal, "one different");
        let mut zeros = vec![0; FOUR];
        zeros[lane].copy_from_slice(&different[2 * SIZE..3 * SIZE]);
        four_are_right(&zeros, "one not zero");
    }
}

/// Equal frames but for one bit, any one; the digests do not cover the check.
#[test]
fn four_frames_that_differ_in_one_bit() {
    let mut frames = Rng::new(1).noise(SIZE).repeat(4);
    let before = under_test().digest4(&frames);
    for at in 0..FOUR {
        let bit = 1 << (at % 8);
        frames[at] ^= bit;
        four_are_right(&frames, &format!("byte {at}"));
        let same = under_test().digest4(&frames) == before;
        assert_eq!(same, at % SIZE >= CHECK_AT, "byte {at}");
        frames[at] ^= bit;
    }
}

#[test]
fn four_frames_at_any_address() {
    let bytes = Rng::new(2).noise(FOUR + 64);
    for start in 0..64 {
        four_are_right(&bytes[start..start + FOUR], &format!("from {start}"));
    }
}

#[test]
fn other_lengths_than_four_frames_give_zeros() {
    let bytes = Rng::new(3).noise(5 * SIZE);
    for length in [0, 1, 480, 512, 1_536, 1_920, 2_047, 2_049, 2_560] {
        let digests = under_test().digest4(&bytes[..length]);
        assert_eq!(digests, [[0; 32]; 4], "{length} bytes");
    }
}
