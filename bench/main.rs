//! Measures the proved library beside the Rust that it is ported from, in one process.
//!
//!   bench FILE..      files of drawing records in hexadecimal digits (see docs/SPEED.md)
#![allow(dead_code, unused_imports)]
include!("original.rs");

mod drawings;
mod original_side;
mod proved;

/// A point of a contour, and where it is moved to; bench_api has the same.
#[repr(C)]
#[derive(Clone, Copy)]
pub struct Move {
    contour: u32,
    point: u32,
    x: i32,
    y: i32,
}

/// Time of this thread on a processor: what else runs on the machine is left out.
fn thread_seconds() -> f64 {
    #[repr(C)]
    struct Timespec {
        seconds: i64,
        nanoseconds: i64,
    }
    extern "C" {
        fn clock_gettime(clock: i32, time: *mut Timespec) -> i32;
    }
    const THREAD_CPUTIME: i32 = 3;
    let mut time = Timespec { seconds: 0, nanoseconds: 0 };
    assert_eq!(unsafe { clock_gettime(THREAD_CPUTIME, &mut time) }, 0);
    time.seconds as f64 + time.nanoseconds as f64 * 1e-9
}

fn timed(work: &dyn Fn(u32) -> u64, rounds: u32) -> (f64, u64) {
    let start = thread_seconds();
    let sum = work(rounds);
    (thread_seconds() - start, sum)
}

fn median(mut times: Vec<f64>) -> f64 {
    times.sort_by(f64::total_cmp);
    times[times.len() / 2]
}

const SAMPLES: usize = 15;
/// A sample takes at least this long.
const SAMPLE_SECONDS: f64 = 0.01;

/// Times both sides in turn, and prints the medians for one of `units` in a round.
fn compare(name: &str, units: usize, least_rounds: u32, proved: &dyn Fn(u32) -> u64, original: &dyn Fn(u32) -> u64) {
    let mut rounds = least_rounds;
    while timed(proved, rounds).0.min(timed(original, rounds).0) < SAMPLE_SECONDS {
        rounds *= 2;
    }
    let mut times = [vec![], vec![]];
    let mut ratios = vec![];
    for sample in 0..SAMPLES {
        let mut took = [(0.0, 0); 2];
        // neither side is always the first
        for side in if sample % 2 == 0 { [0, 1] } else { [1, 0] } {
            took[side] = timed([proved, original][side], rounds);
            times[side].push(took[side].0 / rounds as f64 / units as f64);
        }
        assert_eq!(took[0].1, took[1].1, "{name}: the two sides found different sums");
        ratios.push(took[0].0 / took[1].0);
    }
    let [ours, theirs] = times.map(|times| median(times) * 1e6);
    println!("| {name} | {ours:.3} | {theirs:.3} | {:.3} |", median(ratios));
}

/// Records of one setting and corner rule, one after another.
struct Group {
    bytes: Vec<u8>,
    ends: Vec<usize>,
}

fn group(records: &[Vec<u8>]) -> Vec<Group> {
    let mut groups = std::collections::BTreeMap::new();
    for record in records {
        let group = groups.entry(record[3..8].to_vec()).or_insert(Group { bytes: vec![], ends: vec![] });
        group.bytes.extend(record);
        group.ends.push(group.bytes.len());
    }
    groups.into_values().collect()
}

/// Larger drawings have cases of their own.
const MOST_BYTES: usize = 8 + 5 * 256;

fn compare_files(path: &str) {
    let mut records = drawings::read_records(path);
    records.retain(|record| record.len() <= MOST_BYTES && proved::accepts(record));
    for record in &records {
        assert_eq!(proved::digest(record, &[]), original_side::digest(record, &[]), "{record:02x?}");
    }
    let groups = group(&records);
    let points: usize = records.iter().map(|record| record.len() / 5 - 1).sum();
    println!("\n{path}: {} records with {points} points, {} settings\n", records.len(), groups.len());
    heading();
    // a sheet is made for each group: so many rounds that this does not count
    let smallest = groups.iter().map(|group| group.ends.len()).min().unwrap_or(1);
    let rounds = (400 / smallest).max(4) as u32;
    for (name, reads) in [("place", false), ("place, read both axes", true)] {
        let proved = |n: u32| groups.iter().fold(0u64, |sum, g| sum + proved::records(&g.bytes, &g.ends, n, reads));
        let original =
            |n: u32| groups.iter().fold(0u64, |sum, g| sum + original_side::records(&g.bytes, &g.ends, n, reads));
        compare(name, records.len(), rounds, &proved, &original);
    }
}

fn heading() {
    println!("| work | proved, µs | Rust, µs | proved / Rust |\n|---|---|---|---|");
}

fn compare_drawing(name: &str, record: &[u8]) {
    assert!(proved::accepts(record));
    assert_eq!(proved::digest(record, &[]), original_side::digest(record, &[]));
    let [h, v] = original_side::segment_counts(record);
    let points = record.len() / 5 - 1;
    println!("\n{name}: {points} points, {h} and {v} segments\n");
    heading();
    let ends = [record.len()];
    for (work, reads) in [("place", false), ("place, read both axes", true)] {
        let proved = |n: u32| proved::records(record, &ends, n, reads);
        let original = |n: u32| original_side::records(record, &ends, n, reads);
        compare(work, 1, 16, &proved, &original);
    }
    compare("read both axes", 1, 16, &|n| proved::readings(record, n), &|n| original_side::readings(record, n));
}

fn compare_moves(name: &str, record: &[u8], moves: &[Move]) {
    assert!(proved::accepts(record));
    for count in 0..=moves.len() {
        let moves = &moves[..count];
        assert_eq!(proved::digest(record, moves), original_side::digest(record, moves));
    }
    println!("\n{name}\n");
    heading();
    for (work, reads) in [("move one point", false), ("move one point, read both axes", true)] {
        let proved = |n: u32| proved::moves(record, moves, n, reads);
        let original = |n: u32| original_side::moves(record, moves, n, reads);
        compare(work, moves.len(), 2, &proved, &original);
    }
}

fn main() {
    for path in std::env::args().skip(1) {
        compare_files(&path);
    }
    compare_drawing("four toothed rings", &drawings::rings());
    compare_drawing("zigzag", &drawings::zigzag());
    let page = drawings::page();
    compare_drawing("128 letters of 16 points", &page);
    compare_moves("128 letters of 16 points, edited", &page, &drawings::page_moves());
}
