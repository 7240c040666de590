//! The processor's time of a call, and the files that are measured.

use std::fs;
use std::hint::black_box;
use std::path::Path;
use std::time::Duration;

#[repr(C)]
struct Time {
    seconds: i64,
    nanoseconds: i64,
}

extern "C" {
    fn clock_gettime(clock: i32, time: *mut Time) -> i32;
}

/// The processor's time that this thread has used (Linux on x86-64, which is where the library runs).
fn now() -> Duration {
    const THREAD: i32 = 3;
    let mut time = Time { seconds: 0, nanoseconds: 0 };
    // SAFETY: the time is laid out as C's timespec, and borrowed only for the call.
    assert_eq!(unsafe { clock_gettime(THREAD, &mut time) }, 0, "no clock");
    Duration::new(time.seconds as u64, time.nanoseconds as u32)
}

/// What the work gives; the best time so far becomes its own, if that was shorter.
pub fn timed<T>(best: &mut Duration, work: impl FnOnce() -> T) -> T {
    let start = now();
    let result = black_box(work());
    *best = (now() - start).min(*best);
    result
}

/// What the last of so many calls gives; the best time of them all becomes their own, if that was shorter.
#[allow(dead_code)]
pub fn repeated<T>(calls: u32, best: &mut Duration, mut call: impl FnMut() -> T) -> T {
    timed(best, || {
        for _ in 1..calls {
            black_box(call());
        }
        call()
    })
}

/// The name of a file without its folder and ending, and its bytes.
#[allow(dead_code)]
pub fn named(file: &str) -> (String, Vec<u8>) {
    let bytes = fs::read(file).unwrap_or_else(|error| panic!("{file}: {error}"));
    (Path::new(file).file_stem().unwrap_or_default().to_string_lossy().into_owned(), bytes)
}
