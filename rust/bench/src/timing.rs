//! Times of calls of both engines beside each other, as the processor's time of this thread: what else runs on the machine takes
//! turns with it but does not count.

/// The clock of a thread's processor time on Linux.
const THREAD_CPU: i32 = 3;

#[repr(C)]
#[derive(Default)]
struct Time {
    seconds: i64,
    nanoseconds: i64,
}

unsafe extern "C" {
    fn clock_gettime(clock: i32, time: *mut Time) -> i32;
}

/// Microseconds of the processor that this thread has had.
fn now() -> f64 {
    let mut time = Time::default();
    // Sound: the C library writes one time of this form.
    let status = unsafe { clock_gettime(THREAD_CPU, &mut time) };
    assert_eq!(status, 0, "no clock of the thread's time");
    time.seconds as f64 * 1e6 + time.nanoseconds as f64 / 1e3
}

/// The head of a table of times, a line a case.
pub fn title(what: &str, case: &str) {
    println!("\n{what}: microseconds");
    println!(
        "{case:>32} {:>12} {:>12} {:>8}",
        "proved", "second", "ratio"
    );
}

/// Prints the time of a call of each engine, as the least of several rounds that take turns, and tells the proved engine's.
pub fn compare(case: &str, mut proved: impl FnMut(), mut second: impl FnMut()) -> f64 {
    let calls = (fitting(&mut proved), fitting(&mut second));
    let mut least = (f64::INFINITY, f64::INFINITY);
    for _ in 0..7 {
        least.0 = least.0.min(round(calls.0, &mut proved));
        least.1 = least.1.min(round(calls.1, &mut second));
    }
    print(case, least.0, least.1);
    least.0
}

/// Prints the times of both engines and their ratio.
pub fn print(case: &str, proved: f64, second: f64) {
    let ratio = proved / second;
    println!("{case:>32} {proved:>12.2} {second:>12.2} {ratio:>8.3}");
}

/// Microseconds of one run.
pub fn once(mut run: impl FnMut()) -> f64 {
    round(1, &mut run)
}

/// How many calls take about 20 milliseconds.
fn fitting(call: &mut impl FnMut()) -> u32 {
    let began = now();
    let mut calls = 0;
    while now() < began + 20_000.0 {
        call();
        calls += 1;
    }
    calls
}

/// Microseconds of a call, over so many.
fn round(calls: u32, call: &mut impl FnMut()) -> f64 {
    let began = now();
    (0..calls).for_each(|_| call());
    (now() - began) / f64::from(calls)
}
