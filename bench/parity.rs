// The same work as crates/bench/src/parity_rounds.rt in plain Rust: parity of 7 fragments of 512 bytes,
// and a copy of the same bytes. Build: rustc -O bench/parity.rs -o target/parity_rust
use std::hint::black_box;
use std::time::Instant;

const DATA: usize = 7;
const LENGTH: usize = 512;
const ROUNDS: u32 = 20_000;

fn pattern() -> [[u8; LENGTH]; DATA] {
    let mut all = [[0u8; LENGTH]; DATA];
    let mut seed: u32 = 1;
    for byte in all.iter_mut().flatten() {
        seed = seed.wrapping_mul(1_664_525).wrapping_add(1_013_904_223);
        *byte = (seed >> 24) as u8;
    }
    all
}

#[inline(never)]
fn xor_all(fragments: &[[u8; LENGTH]], out: &mut [u8; LENGTH]) {
    out.fill(0);
    for fragment in fragments {
        for (sum, byte) in out.iter_mut().zip(fragment) {
            *sum ^= byte;
        }
    }
}

#[inline(never)]
fn copy_all(fragments: &[[u8; LENGTH]], out: &mut [[u8; LENGTH]; DATA]) {
    out.copy_from_slice(fragments);
}

fn sum(fragment: &[u8; LENGTH]) -> u8 {
    fragment.iter().fold(0, |all, byte| all.wrapping_add(*byte))
}

fn main() {
    let mut data = pattern();
    let mut out = [0u8; LENGTH];
    let start = Instant::now();
    for round in 0..ROUNDS {
        xor_all(black_box(&data), &mut out);
        data[round as usize % DATA] = out;
    }
    let each = start.elapsed().as_nanos() / u128::from(ROUNDS);
    println!("parity of 7 fragments: {ROUNDS} rounds, {each} ns each (check {})", sum(&out));
    let mut copy = [[0u8; LENGTH]; DATA];
    let start = Instant::now();
    for round in 0..ROUNDS {
        copy_all(black_box(&data), &mut copy);
        data[round as usize % DATA] = copy[(round as usize + 1) % DATA];
    }
    let each = start.elapsed().as_nanos() / u128::from(ROUNDS);
    println!("copy of 7 fragments: {ROUNDS} rounds, {each} ns each (check {})", sum(&copy[0]));
}
