//! The proved library, by the calls that the crate bench_api exports.
use crate::Move;

extern "C" {
    fn bench_accepts(record: *const u8, len: usize) -> bool;
    fn bench_records(records: *const u8, len: usize, ends: *const usize, count: usize, rounds: u32, reads: bool) -> u64;
    fn bench_readings(record: *const u8, len: usize, rounds: u32) -> u64;
    fn bench_moves(record: *const u8, len: usize, moves: *const Move, count: usize, rounds: u32, reads: bool) -> u64;
    fn bench_digest(record: *const u8, len: usize, moves: *const Move, count: usize) -> u64;
}

// Each call is passed slices that live through it, and none asks more than that.

pub fn accepts(record: &[u8]) -> bool {
    unsafe { bench_accepts(record.as_ptr(), record.len()) }
}

pub fn records(records: &[u8], ends: &[usize], rounds: u32, reads: bool) -> u64 {
    unsafe { bench_records(records.as_ptr(), records.len(), ends.as_ptr(), ends.len(), rounds, reads) }
}

pub fn readings(record: &[u8], rounds: u32) -> u64 {
    unsafe { bench_readings(record.as_ptr(), record.len(), rounds) }
}

pub fn moves(record: &[u8], moves: &[Move], rounds: u32, reads: bool) -> u64 {
    unsafe { bench_moves(record.as_ptr(), record.len(), moves.as_ptr(), moves.len(), rounds, reads) }
}

pub fn digest(record: &[u8], moves: &[Move]) -> u64 {
    unsafe { bench_digest(record.as_ptr(), record.len(), moves.as_ptr(), moves.len()) }
}
