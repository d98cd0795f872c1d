// The same work as crates/bench/src/servers.rt in plain Rust, on a BTreeMap: fetches, deletes and stores
// of 512 bytes under keys, the same calls in the same order. Without arguments it says what it did; with
// the word `times` it does more of it, and how many nanoseconds each call took.
// Build: rustc -O bench/servers.rs -o /tmp/servers_rust
use std::collections::BTreeMap;
use std::hint::black_box;
use std::time::{Duration, Instant};

const LENGTH: usize = 512;
const CALLS_IN_ROUND: usize = 50;
const GAP: u64 = 343_597;

type Key = (u8, u32);
type Fragment = [u8; LENGTH];
type Server = BTreeMap<Key, Fragment>;

struct Noise(u64);

impl Noise {
    fn next(&mut self) -> u32 {
        self.0 = self
            .0
            .wrapping_mul(6_364_136_223_846_793_005)
            .wrapping_add(1_442_695_040_888_963_407);
        (self.0 >> 32) as u32
    }
}

fn rising(count: u32) -> Vec<Key> {
    let numbers = (0..count).map(|i| u64::from(i) * GAP);
    numbers
        .map(|number| ((number >> 32) as u8, number as u32))
        .collect()
}

fn draw<'k>(keys: &'k mut [Key], noise: &mut Noise) -> &'k [Key] {
    let drawn = CALLS_IN_ROUND.min(keys.len());
    for at in 0..drawn {
        let other = at + noise.next() as usize % (keys.len() - at);
        keys.swap(at, other);
    }
    &keys[..drawn]
}

fn fragment_of(key: Key) -> Fragment {
    let mut noise = Noise((u64::from(key.0) << 32) + u64::from(key.1));
    let mut fragment = [0; LENGTH];
    for byte in fragment.iter_mut() {
        *byte = (noise.next() >> 24) as u8;
    }
    fragment
}

fn digested(hash: u64, fragments: &[Fragment]) -> u64 {
    let bytes = fragments.as_flattened().iter();
    bytes.fold(hash, |hash, byte| {
        (hash ^ u64::from(*byte)).wrapping_mul(0x0000_0100_0000_01b3)
    })
}

fn store_all(server: &mut Server, keys: &[Key], fragments: &[Fragment]) {
    for (key, fragment) in keys.iter().zip(fragments) {
        assert!(server.insert(*key, *fragment).is_none(), "is not held");
    }
}

fn fetch_all(server: &Server, keys: &[Key], out: &mut [Fragment]) {
    for (key, fragment) in keys.iter().zip(out) {
        fragment.copy_from_slice(server.get(key).expect("is held"));
    }
}

fn fetch_one(server: &Server, key: Key, out: &mut [Fragment]) {
    for fragment in out {
        fragment.copy_from_slice(black_box(server).get(&key).expect("is held"));
    }
}

fn delete_all(server: &mut Server, keys: &[Key]) {
    for key in keys {
        server.remove(key).expect("is held");
    }
}

#[derive(Default)]
struct Spent {
    fetches_of_one: Duration,
    fetches: Duration,
    deletes: Duration,
    stores: Duration,
}

fn timed<F: FnOnce()>(spent: &mut Duration, work: F) {
    let start = Instant::now();
    work();
    *spent += start.elapsed();
}

fn round(server: &mut Server, keys: &[Key], spent: &mut Spent, hash: &mut u64) {
    let mut buffer = [[0; LENGTH]; CALLS_IN_ROUND];
    let fragments = &mut buffer[..keys.len()];
    let last = keys[keys.len() - 1];
    timed(&mut spent.fetches_of_one, || {
        fetch_one(server, last, fragments)
    });
    *hash = digested(*hash, fragments);
    timed(&mut spent.fetches, || fetch_all(server, keys, fragments));
    *hash = digested(*hash, fragments);
    for fragment in fragments.iter_mut() {
        fragment[0] = fragment[0].wrapping_add(1);
    }
    timed(&mut spent.deletes, || delete_all(server, keys));
    timed(&mut spent.stores, || store_all(server, keys, fragments));
}

fn measure(count: u32, rounds: u32, times: bool) {
    let mut keys = rising(count);
    let mut server = Server::new();
    for key in &keys {
        server.insert(*key, fragment_of(*key));
    }
    let mut noise = Noise(1);
    let mut spent = Spent::default();
    let mut hash = 0xcbf2_9ce4_8422_2325;
    for _ in 0..rounds {
        round(
            &mut server,
            draw(&mut keys, &mut noise),
            &mut spent,
            &mut hash,
        );
    }
    let calls = u128::from(rounds) * CALLS_IN_ROUND as u128;
    let free = count as usize - server.len();
    println!(
        "BTreeMap of {count}: {calls} calls of each sort, {free} free after, digest {hash:016x}"
    );
    if times {
        let [one, fetch, delete, store] = [
            spent.fetches_of_one,
            spent.fetches,
            spent.deletes,
            spent.stores,
        ]
        .map(|time| time.as_nanos() / calls);
        println!(
            "    ns a call: fetch of one key {one}, fetch {fetch}, delete {delete}, store {store}"
        );
    }
}

fn main() {
    let times = std::env::args().nth(1).is_some_and(|word| word == "times");
    let loads = if times {
        [(1_000, 20), (100_000, 20)]
    } else {
        [(100, 4), (1_000, 4)]
    };
    for (count, rounds) in loads {
        measure(count, rounds, times);
    }
}
