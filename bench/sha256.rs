//! SHA-256 in safe Rust, to compare with, in the form of the proved code: sixteen words of the schedule, sixteen rounds at a time;
//! of one message (`digest`), and of four at once, each in a lane of its own (`digest4`).

/// The constants of the 64 rounds.
pub const K: [u32; 64] = [
    0x428a2f98, 0x71374491, 0xb5c0fbcf, 0xe9b5dba5, 0x3956c25b, 0x59f111f1, 0x923f82a4, 0xab1c5ed5,
    0xd807aa98, 0x12835b01, 0x243185be, 0x550c7dc3, 0x72be5d74, 0x80deb1fe, 0x9bdc06a7, 0xc19bf174,
    0xe49b69c1, 0xefbe4786, 0x0fc19dc6, 0x240ca1cc, 0x2de92c6f, 0x4a7484aa, 0x5cb0a9dc, 0x76f988da,
    0x983e5152, 0xa831c66d, 0xb00327c8, 0xbf597fc7, 0xc6e00bf3, 0xd5a79147, 0x06ca6351, 0x14292967,
    0x27b70a85, 0x2e1b2138, 0x4d2c6dfc, 0x53380d13, 0x650a7354, 0x766a0abb, 0x81c2c92e, 0x92722c85,
    0xa2bfe8a1, 0xa81a664b, 0xc24b8b70, 0xc76c51a3, 0xd192e819, 0xd6990624, 0xf40e3585, 0x106aa070,
    0x19a4c116, 0x1e376c08, 0x2748774c, 0x34b0bcb5, 0x391c0cb3, 0x4ed8aa4a, 0x5b9cca4f, 0x682e6ff3,
    0x748f82ee, 0x78a5636f, 0x84c87814, 0x8cc70208, 0x90befffa, 0xa4506ceb, 0xbef9a3f7, 0xc67178f2,
];

#[inline(always)]
fn round(s: &mut [u32; 8], i: usize, k: u32, w: u32) {
    let at = |j: usize| (j + 16 - i) % 8;
    let [a, b, c, d, e, f, g, h] =
        [at(0), at(1), at(2), at(3), at(4), at(5), at(6), at(7)].map(|j| s[j]);
    let t1 = h
        .wrapping_add(e.rotate_right(6) ^ e.rotate_right(11) ^ e.rotate_right(25))
        .wrapping_add((e & f) ^ (!e & g))
        .wrapping_add(k)
        .wrapping_add(w);
    let t2 = (a.rotate_right(2) ^ a.rotate_right(13) ^ a.rotate_right(22))
        .wrapping_add((a & b) ^ (a & c) ^ (b & c));
    s[at(3)] = d.wrapping_add(t1);
    s[at(7)] = t1.wrapping_add(t2);
}

/// The word after sixteen, of which `at` gives one by its number modulo 16; the oldest is word i.
#[inline(always)]
fn extended(at: impl Fn(usize) -> u32, i: usize) -> u32 {
    let (x, y) = (at((i + 14) % 16), at((i + 1) % 16));
    at(i)
        .wrapping_add(x.rotate_right(17) ^ x.rotate_right(19) ^ x >> 10)
        .wrapping_add(at((i + 9) % 16))
        .wrapping_add(y.rotate_right(7) ^ y.rotate_right(18) ^ y >> 3)
}

#[inline(always)]
fn next(w: &mut [u32; 16], i: usize) -> u32 {
    w[i] = extended(|j| w[j], i);
    w[i]
}

/// Sixteen rounds, written out: the compiler unrolls no loop of this size by itself.
macro_rules! sixteen {
    ($s:expr, $t:expr, $w:expr) => {
        sixteen!(@ $s, $t, $w, 0 1 2 3 4 5 6 7 8 9 10 11 12 13 14 15)
    };
    (@ $s:expr, $t:expr, $w:expr, $($i:literal)*) => {{ $( let x = $w($i); round($s, $i % 8, K[$t + $i], x); )* }};
}

fn compress(state: &mut [u32; 8], block: &[u8]) {
    let mut s = *state;
    let mut w = [0u32; 16];
    for (x, b) in w.iter_mut().zip(block.chunks_exact(4)) {
        *x = u32::from_be_bytes([b[0], b[1], b[2], b[3]]);
    }
    sixteen!(&mut s, 0, |i: usize| w[i]);
    for t in [16, 32, 48] {
        sixteen!(&mut s, t, |i: usize| next(&mut w, i));
    }
    for (x, y) in state.iter_mut().zip(s) {
        *x = x.wrapping_add(y);
    }
}

/// The hash value before the first block.
const START: [u32; 8] = [
    0x6a09e667, 0xbb67ae85, 0x3c6ef372, 0xa54ff53a, 0x510e527f, 0x9b05688c, 0x1f83d9ab, 0x5be0cd19,
];

fn bytes_of(s: [u32; 8]) -> [u8; 32] {
    let mut out = [0; 32];
    for (o, x) in out.chunks_exact_mut(4).zip(s) {
        o.copy_from_slice(&x.to_be_bytes());
    }
    out
}

pub fn digest(m: &[u8]) -> [u8; 32] {
    let mut s = START;
    let blocks = m.chunks_exact(64);
    let rest = blocks.remainder();
    blocks.for_each(|b| compress(&mut s, b));
    let mut last = [0u8; 128];
    let end = if rest.len() < 56 { 64 } else { 128 };
    last[..rest.len()].copy_from_slice(rest);
    last[rest.len()] = 0x80;
    last[end - 8..end].copy_from_slice(&(m.len() as u64 * 8).to_be_bytes());
    last[..end]
        .chunks_exact(64)
        .for_each(|b| compress(&mut s, b));
    bytes_of(s)
}

const LANES: usize = 4;
const FRAME: usize = 512;
/// What a frame's check is of: seven blocks of 64 bytes, and half of one.
const MESSAGE: usize = 480;

/// A value for each lane.
type Row = [u32; LANES];

#[inline(always)]
fn next_in_lane(w: &mut [Row; 16], i: usize, l: usize) -> u32 {
    w[i][l] = extended(|j| w[j][l], i);
    w[i][l]
}

/// Rounds of every lane. The loop over the lanes goes around sixteen rounds, and the compiler makes vectors of it.
#[inline(always)]
fn each_lane(s: &mut [Row; 8], mut rounds: impl FnMut(&mut [u32; 8], usize)) {
    for l in 0..LANES {
        let mut v = [0; 8];
        for (x, row) in v.iter_mut().zip(&*s) {
            *x = row[l];
        }
        rounds(&mut v, l);
        for (row, x) in s.iter_mut().zip(v) {
            row[l] = x;
        }
    }
}

fn compress4(state: &mut [Row; 8], blocks: [&[u8; 64]; LANES]) {
    let mut s = *state;
    let mut w = [[0; LANES]; 16];
    for (t, row) in w.iter_mut().enumerate() {
        *row = blocks.map(|b| u32::from_be_bytes(b.as_chunks().0[t]));
    }
    each_lane(&mut s, |v, l| sixteen!(v, 0, |i: usize| w[i][l]));
    for t in (16..64).step_by(16) {
        each_lane(&mut s, |v, l| {
            sixteen!(v, t, |i: usize| next_in_lane(&mut w, i, l))
        });
    }
    for (x, y) in state.as_flattened_mut().iter_mut().zip(s.as_flattened()) {
        *x = x.wrapping_add(*y);
    }
}

/// The digests of four messages.
pub fn digest4(m: [&[u8; MESSAGE]; LANES]) -> [[u8; 32]; LANES] {
    let mut s = START.map(|x| [x; LANES]);
    for i in 0..MESSAGE / 64 {
        compress4(&mut s, m.map(|m| &m.as_chunks().0[i]));
    }
    let last = m.map(|m| {
        let rest = &m[MESSAGE / 64 * 64..];
        let mut block = [0; 64];
        block[..rest.len()].copy_from_slice(rest);
        block[rest.len()] = 0x80;
        block[56..].copy_from_slice(&(MESSAGE as u64 * 8).to_be_bytes());
        block
    });
    compress4(&mut s, last.each_ref());
    std::array::from_fn(|l| bytes_of(s.map(|row| row[l])))
}

/// # Safety
/// `m` points to `len` readable bytes and `out` to 32 writable ones.
#[no_mangle]
pub unsafe extern "C" fn rust_digest(m: *const u8, len: usize, out: *mut u8) {
    let d = digest(std::slice::from_raw_parts(m, len));
    std::ptr::copy_nonoverlapping(d.as_ptr(), out, 32);
}

/// # Safety
/// `frames` points to four frames end to end, and `out` to 128 writable bytes.
#[no_mangle]
pub unsafe extern "C" fn rust_digest4(frames: *const u8, out: *mut u8) {
    let m = std::array::from_fn(|l| &*frames.add(FRAME * l).cast());
    let d = digest4(m);
    std::ptr::copy_nonoverlapping(d.as_flattened().as_ptr(), out, 32 * LANES);
}
