//! Measures the proved slot table beside the crate's SlotRangeMap, on the same ranges in one run. Ours reads its table
//! from an answer to CLUSTER SLOTS; the reading is taken off the time of the lookups and measured by itself.
use slot_range_map::SlotRangeMap;
use std::{hint::black_box, process::exit, sync::Arc, time::Instant};

#[allow(dead_code, unexpected_cfgs)]
mod slot_range_map {
    include!(env!("SLOT_RANGE_MAP"));
}

mod probe {
    // crates/probe: a slice is passed as a pointer and a length.
    unsafe extern "C" {
        fn slots_read(answer: *const u8, answer_len: usize) -> u64;
        fn slots_found(answer: *const u8, answer_len: usize, slots: *const u8, slots_len: usize, rounds: u64) -> u64;
    }

    /// How many ranges the answer's table has; u64::MAX where it is refused.
    pub fn read(answer: &[u8]) -> u64 {
        unsafe { slots_read(answer.as_ptr(), answer.len()) }
    }

    /// Reads the table once and looks all slots up so many times: the sum of the starts and the primaries' ports found.
    pub fn found(answer: &[u8], slots: &[u8], rounds: u64) -> u64 {
        unsafe { slots_found(answer.as_ptr(), answer.len(), slots.as_ptr(), slots.len(), rounds) }
    }
}

const RANGES: u16 = 256;
const SLOTS: u16 = 16384;
const WIDTH: u16 = SLOTS / RANGES;
const ADDRESSES: u16 = 64;
const HOST: &str = "127.0.0.1";
const LONGEST: usize = 65535;

const ROUNDS: usize = 7;
const ROUND_SECONDS: f64 = 0.05;
const MOST_RATIO: f64 = 2.0;
const MOST_MILLISECONDS: f64 = 2.0;

fn fail(what: &str) -> ! {
    eprintln!("bench: {what}");
    exit(1)
}

// The ranges

struct Range {
    start: u16,
    end: u16,
    ports: Vec<u16>, // the primary's first
}

fn ranges(replicas: u16) -> Vec<Range> {
    let range = |i: u16| Range {
        start: i * WIDTH,
        end: i * WIDTH + (WIDTH - 1),
        ports: (i..=i + replicas).map(|n| 7000 + n % ADDRESSES).collect(),
    };
    (0..RANGES).map(range).collect()
}

/// What a node has behind its port, as a server sends it.
fn fields(port: u16) -> String {
    format!("$40\r\n{:040x}\r\n*0\r\n", u128::from(port) << 64)
}

/// The answer of a server with these ranges; without fields a node is its host and port alone.
fn answer(ranges: &[Range], with_fields: bool) -> Vec<u8> {
    let mut text = format!("*{}\r\n", ranges.len());
    for r in ranges {
        text += &format!("*{}\r\n:{}\r\n:{}\r\n", 2 + r.ports.len(), r.start, r.end);
        for &port in &r.ports {
            let (count, more) = if with_fields { (4, fields(port)) } else { (2, String::new()) };
            text += &format!("*{count}\r\n${}\r\n{HOST}\r\n:{port}\r\n{more}", HOST.len());
        }
    }
    if text.len() > LONGEST {
        fail("an answer is longer than an entry of a tape");
    }
    text.into_bytes()
}

// The Rust

#[allow(dead_code)] // only a primary's port is asked for
struct NodeAddress {
    host: Arc<str>,
    port: u16,
}

/// `get` gives the value alone, so the start stands in it.
#[allow(dead_code)]
struct SlotAddrs {
    start: u16,
    primary: NodeAddress,
    replicas: Vec<NodeAddress>,
}

fn range_map(ranges: &[Range]) -> SlotRangeMap<SlotAddrs> {
    let host: Arc<str> = HOST.into();
    let mut map = SlotRangeMap::new();
    for r in ranges {
        let mut nodes = r.ports.iter().map(|&port| NodeAddress { host: host.clone(), port });
        let primary = nodes.next().unwrap();
        map.insert(r.start, r.end, SlotAddrs { start: r.start, primary, replicas: nodes.collect() });
    }
    map
}

fn found(map: &SlotRangeMap<SlotAddrs>, slots: &[u8], rounds: u64) -> u64 {
    let mut sum = 0u64;
    for _ in 0..rounds {
        let map = black_box(map);
        for slot in black_box(slots).chunks_exact(2) {
            if let Some(addrs) = map.get(u16::from_le_bytes([slot[0], slot[1]])) {
                sum = sum.wrapping_add(u64::from(addrs.start) + u64::from(addrs.primary.port));
            }
        }
    }
    sum
}

// The clock

fn seconds(job: &mut dyn FnMut(u64), times: u64) -> f64 {
    let from = Instant::now();
    job(times);
    from.elapsed().as_secs_f64()
}

/// So many times that a round takes long enough for the clock.
fn fitted(job: &mut dyn FnMut(u64)) -> u64 {
    let mut times = 1;
    while seconds(job, times) < ROUND_SECONDS {
        times *= 2;
    }
    times
}

/// The time of each job in its best round. The rounds alternate, so that a busy machine slows all of them alike.
fn best<const N: usize>(jobs: [&mut dyn FnMut(u64); N], times: [u64; N]) -> [f64; N] {
    let mut best = [f64::INFINITY; N];
    for _ in 0..ROUNDS {
        for i in 0..N {
            best[i] = best[i].min(seconds(jobs[i], times[i]));
        }
    }
    best
}

// The measurements: whether each keeps its bound

fn are_lookups_fast(name: &str, slots: &[u16]) -> bool {
    let ranges = ranges(2);
    let (map, answer) = (range_map(&ranges), answer(&ranges, true));
    let slots: Vec<u8> = slots.iter().flat_map(|slot| slot.to_le_bytes()).collect();
    let rust = &mut |times| _ = black_box(found(&map, &slots, times));
    let ours = &mut |times| _ = black_box(probe::found(&answer, &slots, times));
    let reading = &mut |_| _ = black_box(probe::found(&answer, &slots, 0));
    let times = fitted(rust);
    if [0, 1, times].iter().any(|&n| found(&map, &slots, n) != probe::found(&answer, &slots, n)) {
        fail(&format!("lookups {name}: the Rust and ours find different ranges"));
    }
    let [rust, ours, reading] = best([rust, ours, reading], [times; 3]);
    let each = |seconds: f64| 1e6 * seconds / times as f64;
    let (rust, ours) = (each(rust), each(ours - reading));
    let ratio = ours / rust;
    println!("{name:<24} {rust:>10.1} {ours:>10.1} {ratio:>10.2} {MOST_RATIO:>10.2}");
    ratio <= MOST_RATIO
}

fn is_reading_fast(name: &str, answer: &[u8]) -> bool {
    if probe::read(answer) != u64::from(RANGES) {
        fail(&format!("{name}: the answer is not read as {RANGES} ranges"));
    }
    let job = &mut |times| (0..times).for_each(|_| _ = black_box(probe::read(black_box(answer))));
    let times = fitted(job);
    let [seconds] = best([job], [times]);
    let milliseconds = 1e3 * seconds / times as f64;
    println!("{name:<24} {:>10} {milliseconds:>10.3} {:>10} {MOST_MILLISECONDS:>10.3}", answer.len(), "");
    milliseconds <= MOST_MILLISECONDS
}

/// A busy machine has a second chance.
fn passes(name: &str, is_fast: impl Fn() -> bool) -> bool {
    let passed = is_fast() || is_fast();
    if !passed {
        eprintln!("bench: {name}: above what is allowed");
    }
    passed
}

/// The same slots in an order that no prediction follows, and the same in every run.
fn shuffled(mut slots: Vec<u16>) -> Vec<u16> {
    let mut state = 1u64;
    for i in (1..slots.len()).rev() {
        state = state.wrapping_mul(6364136223846793005).wrapping_add(1442695040888963407);
        slots.swap(i, ((state >> 33) % (i as u64 + 1)) as usize);
    }
    slots
}

fn main() {
    let in_order: Vec<u16> = (0..SLOTS).collect();
    println!("best of {ROUNDS} rounds; all {SLOTS} slots in {RANGES} ranges\n");
    println!("{:<24} {:>10} {:>10} {:>10} {:>10}", "", "the Rust", "ours", "ours to", "at most");
    println!("{:<24} {:>10} {:>10} {:>10} {:>10}", "lookups", "us", "us", "the Rust", "");
    let mut passed = true;
    for (name, slots) in [("in order", in_order.clone()), ("shuffled", shuffled(in_order))] {
        passed &= passes(&format!("lookups {name}"), || are_lookups_fast(name, &slots));
    }
    println!("\n{:<24} {:>10} {:>10} {:>10} {:>10}", "", "", "ours", "", "at most");
    println!("{:<24} {:>10} {:>10} {:>10} {:>10}", "reading", "bytes", "ms", "", "ms");
    for (replicas, with_fields) in [(2, true), (8, false)] {
        let mut ranges = ranges(replicas);
        for order in ["ascending", "descending"] {
            let (name, answer) = (format!("{replicas} replicas, {order}"), answer(&ranges, with_fields));
            passed &= passes(&format!("reading {name}"), || is_reading_fast(&name, &answer));
            ranges.reverse();
        }
    }
    if !passed {
        exit(1);
    }
}
