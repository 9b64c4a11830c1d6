//! Processor time in nanoseconds. What other programs of the machine take meanwhile is not in it, as it
//! would be in the time of day.
// processes are timed beside the oracle alone
#![cfg_attr(not(clarabel), allow(dead_code))]

use std::ffi::{c_int, c_long};

/// A count of seconds, and of their parts: nanoseconds or microseconds, by the call.
#[repr(C)]
#[derive(Default)]
struct Time {
    seconds: c_long,
    parts: c_long,
}

#[repr(C)]
#[derive(Default)]
struct Usage {
    user: Time,
    system: Time,
    rest: [c_long; 14],
}

// of the C library, which Rust's own stands on
extern "C" {
    fn clock_gettime(clock: c_int, time: *mut Time) -> c_int;
    fn getrusage(who: c_int, usage: *mut Usage) -> c_int;
}

/// Linux's numbers for the thread that asks, and for the processes that it has waited for.
const THREAD: c_int = 3;
const CHILDREN: c_int = -1;

pub fn of_thread() -> f64 {
    let mut time = Time::default();
    // SAFETY: the call writes one such time.
    let status = unsafe { clock_gettime(THREAD, &mut time) };
    assert!(status == 0, "no clock for a thread");
    time.seconds as f64 * 1e9 + time.parts as f64
}

pub fn of_children() -> f64 {
    let mut usage = Usage::default();
    // SAFETY: the call writes one such usage.
    let status = unsafe { getrusage(CHILDREN, &mut usage) };
    assert!(status == 0, "no times of processes");
    let times = [usage.user, usage.system];
    times
        .iter()
        .map(|time| time.seconds as f64 * 1e9 + time.parts as f64 * 1e3)
        .sum()
}
