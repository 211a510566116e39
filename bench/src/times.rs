//! How long work takes, by the clock of the processor's time that this process has had.
use crate::rows::{Row, Work};
use std::hint::black_box;

// How often each worker is timed, and for how many nanoseconds at least, about.
const REPEATS: usize = 7;
const LEAST: f64 = 5e6;

/// The nanoseconds that a round takes each worker: the median of several times, between which the
/// others have theirs.
pub fn times(row: &Row, bytes: &[u8]) -> Vec<(&'static str, f64)> {
    let works: Vec<(&str, Work)> = row.works().collect();
    let rounds: Vec<u32> = works
        .iter()
        .map(|(_, work)| enough_rounds(*work, bytes))
        .collect();
    let mut times = vec![Vec::new(); works.len()];
    for _ in 0..REPEATS {
        for (place, (_, work)) in works.iter().enumerate() {
            times[place].push(of_round(*work, bytes, rounds[place]));
        }
    }
    let workers = works.iter().map(|(worker, _)| *worker);
    workers.zip(times.into_iter().map(median)).collect()
}

// What more rounds take above one, so that nothing counts that is made once before.
fn of_round(work: Work, bytes: &[u8], rounds: u32) -> f64 {
    let one = spent(work, bytes, 1);
    let more = spent(work, bytes, 1 + rounds);
    (more - one) / f64::from(rounds)
}

fn enough_rounds(work: Work, bytes: &[u8]) -> u32 {
    let round = of_round(work, bytes, 3).max(1000.0);
    (LEAST / round).ceil() as u32
}

fn spent(work: Work, bytes: &[u8], rounds: u32) -> f64 {
    let start = now();
    black_box(work(black_box(bytes), rounds));
    now() - start
}

fn median(mut times: Vec<f64>) -> f64 {
    times.sort_by(f64::total_cmp);
    times[times.len() / 2]
}

#[repr(C)]
struct Time {
    seconds: i64,
    nanoseconds: i64,
}

const PROCESS_TIME: i32 = 2;

extern "C" {
    fn clock_gettime(clock: i32, time: *mut Time) -> i32;
}

fn now() -> f64 {
    let mut time = Time {
        seconds: 0,
        nanoseconds: 0,
    };
    // SAFETY: the call fills in the time, which has C's layout on 64-bit Linux.
    unsafe { clock_gettime(PROCESS_TIME, &mut time) };
    time.seconds as f64 * 1e9 + time.nanoseconds as f64
}
