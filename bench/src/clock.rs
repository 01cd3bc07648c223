//! Times of programs on the same calls, taken in turn.
use crate::calls::Calls;
use crate::inputs::Case;
use std::hint::black_box;

/// What `clock_gettime` fills in, on 64-bit Linux.
#[repr(C)]
struct Spec {
    seconds: i64,
    nanoseconds: i64,
}

extern "C" {
    fn clock_gettime(clock: i32, to: *mut Spec) -> i32;
}

/// The processor time of this thread, by its number in Linux.
const THREAD_TIME: i32 = 3;

/// Nanoseconds of this thread on the processor: what other work takes of the core is not counted.
fn now() -> f64 {
    let mut t = Spec {
        seconds: 0,
        nanoseconds: 0,
    };
    let status = unsafe { clock_gettime(THREAD_TIME, &mut t) };
    assert!(
        status == 0,
        "the processor time of a thread is not to be had"
    );
    t.seconds as f64 * 1e9 + t.nanoseconds as f64
}

/// The time of so many passes over the calls, in nanoseconds.
fn passes(count: u64, cases: &mut [Case], by: &dyn Calls) -> f64 {
    let start = now();
    for _ in 0..count {
        for case in cases.iter_mut() {
            black_box(black_box(case).told(by));
        }
    }
    now() - start
}

/// Betters the least time of a pass over the calls, for each program: batches of 2 ms or of one pass, in turn, ten rounds or, from
/// the second on, one second.
pub fn improve(best: &mut [f64], cases: &mut [Case], programs: &[&dyn Calls]) {
    let start = now();
    for round in 0..10 {
        if round >= 1 && now() - start > 1e9 {
            break;
        }
        for (least, by) in best.iter_mut().zip(programs) {
            let count = (2e6 / *least).clamp(1.0, 1e6) as u64;
            *least = least.min(passes(count, cases, *by) / count as f64);
        }
    }
}
