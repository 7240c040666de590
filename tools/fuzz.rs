//! Fresh random sheets through the library against the oracle, each slice between pages that may not be touched, and timed runs of
//! the accepted sheets, some at random and all of them where they are few, against the window that the library gives.
//!
//!     fuzz SEED COUNT [RUNS]     COUNT sheets, RUNS timed runs of each accepted one (20)
//!
//! It stops at the first difference, prints the sheet, and ends with 1.

#[allow(dead_code)]
mod generator;
#[allow(dead_code)]
mod oracle;
#[allow(dead_code)]
mod zumbeiry;

use generator::{answer, Entry, Generator, Random};
use oracle::Figures;
use std::ffi::c_void;
use std::time::Instant;
use std::{env, process, ptr, slice};

extern "C" {
    fn mmap(address: *mut c_void, length: usize, protection: i32, flags: i32, file: i32, offset: i64) -> *mut c_void;
    fn mprotect(address: *mut c_void, length: usize, protection: i32) -> i32;
}

// the values of Linux on x86-64, which is where the library runs
const PAGE: usize = 4096;
const NONE: i32 = 0;
const READ: i32 = 1;
const READ_WRITE: i32 = 3;
const PRIVATE_ANONYMOUS: i32 = 0x22;

/// A longer sheet is refused unread.
const MOST_BYTES: usize = 16_384;

/// All runs of a sheet are followed as far as this many events.
const MOST_EVENTS: u64 = 500;

/// What stands in the pages beside a slice.
const CANARY: u8 = 0xA5;

/// Pages between two that may not be touched.
struct Guarded {
    start: *mut u8,
    length: usize,
}

impl Guarded {
    fn new(pages: usize) -> Guarded {
        let length = pages * PAGE;
        // SAFETY: the pages are new, and nothing else knows of them.
        unsafe {
            let all = mmap(ptr::null_mut(), length + 2 * PAGE, NONE, PRIVATE_ANONYMOUS, -1, 0);
            assert_ne!(all as isize, -1, "no pages");
            let guarded = Guarded { start: all.cast::<u8>().add(PAGE), length };
            guarded.allow(READ_WRITE);
            ptr::write_bytes(guarded.start, CANARY, length);
            guarded
        }
    }

    fn allow(&self, protection: i32) {
        // SAFETY: they are this value's pages.
        assert_eq!(unsafe { mprotect(self.start.cast(), self.length, protection) }, 0);
    }

    /// A slice of the numbers, at the end of the pages or at their start; canaries stand in the rest.
    fn place<T: Copy>(&mut self, numbers: &[T], at_end: bool) -> &mut [T] {
        let size = size_of_val(numbers);
        assert!(size <= self.length);
        // SAFETY: the numbers fit; pages are aligned for any number, and so is what ends with them.
        unsafe {
            ptr::write_bytes(self.start, CANARY, self.length);
            let at = self.start.add(if at_end { self.length - size } else { 0 }).cast::<T>();
            ptr::copy_nonoverlapping(numbers.as_ptr(), at, numbers.len());
            slice::from_raw_parts_mut(at, numbers.len())
        }
    }

    /// Whether the bytes beside a slice of that size are as they were.
    fn untouched(&self, size: usize, at_end: bool) -> bool {
        // SAFETY: the pages are readable, and no slice of them is in use.
        let all = unsafe { slice::from_raw_parts(self.start, self.length) };
        let rest = if at_end { &all[..self.length - size] } else { &all[size..] };
        rest.iter().all(|&byte| byte == CANARY)
    }
}

fn differ(what: &str, entry: &Entry) -> ! {
    let sheet: String = entry.sheet.iter().map(|byte| format!("{byte:02X}")).collect();
    println!("{what}: length {} sheet {sheet}", entry.length);
    process::exit(1)
}

/// Whether every run had a result at each event, was never stuck or past the limit, and finished in the window if it finished.
fn in_window(figures: &Figures, low: u64, high: u64) -> bool {
    let faults = figures.no_reading + figures.off_the_scale + figures.stuck + figures.past_limit;
    faults == 0 && (figures.finished == 0 || low <= figures.low && figures.high <= high)
}

fn pages(bytes: usize) -> usize {
    bytes.div_ceil(PAGE).max(1)
}

fn main() {
    let arguments: Option<Vec<u64>> = env::args().skip(1).map(|argument| argument.parse().ok()).collect();
    let (seed, count, runs_each) = match arguments.as_deref() {
        Some(&[seed, count]) => (seed, count, 20),
        Some(&[seed, count, runs]) => (seed, count, runs),
        _ => {
            eprintln!("usage: fuzz SEED COUNT [RUNS]");
            process::exit(2)
        }
    };
    let start = Instant::now();
    let mut generator = Generator::new(seed);
    let mut random = Random(!seed);
    let mut of = [0u64; 17];
    let (mut done, mut passed_over, mut short, mut steps, mut runs, mut longest) = (0u64, 0u64, 0u64, 0u64, 0u64, 0u64);
    let (mut followed_whole, mut of_these) = (0u64, 0u64);
    let mut answers = Guarded::new(1);
    // by the number of pages, so that a small slice has few canaries to look through
    let mut sheets: Vec<Option<Guarded>> = Vec::new();
    let mut works: Vec<Option<Guarded>> = Vec::new();
    while done < count {
        let mut entry = generator.entry();
        if random.below(1000) == 0 {
            // about as long as a sheet may be, or a little longer
            entry.sheet.resize(MOST_BYTES - 4 + random.below(9), 0);
        }
        let Some(expected) = answer(&entry.sheet, entry.length) else {
            passed_over += 1;
            continue;
        };
        let expected = [u64::from(expected.refusal), expected.place as u64, expected.steps, expected.low, expected.high];

        let sheet_at_end = random.chance(50);
        let sheet_pages = guarded(&mut sheets, pages(entry.sheet.len()));
        let sheet: &[u8] = sheet_pages.place(&entry.sheet, sheet_at_end);
        let sheet = (sheet.as_ptr(), sheet.len());
        sheet_pages.allow(READ);
        // SAFETY: the pages are readable until the next sheet is placed.
        let sheet = unsafe { slice::from_raw_parts(sheet.0, sheet.1) };

        let fill = random.next() as i32 | 1;
        let work_at_end = random.chance(50);
        let work_size = 4 * entry.length;
        let work_pages = guarded(&mut works, pages(work_size));
        let work = work_pages.place(&vec![fill; entry.length], work_at_end);

        // five numbers, at times more or fewer
        let room = if random.chance(90) { 5 } else { random.below(8) };
        let before: Vec<u64> = (0..room).map(|_| random.next()).collect();
        let answer_at_end = random.chance(50);
        let given = answers.place(&before, answer_at_end);

        let refusal = zumbeiry::check_into(sheet, work, given);

        if u64::from(refusal) != expected[0] {
            differ("the refusal differs", &entry);
        }
        if room < 5 {
            short += 1;
            if *given != before[..] {
                differ("a short answer was written", &entry);
            }
        } else if given[..5] != expected || given[5..] != before[5..] {
            differ("the five numbers differ", &entry);
        }
        if work.iter().any(|&number| number != 0) {
            differ("the work buffer is not all zeros", &entry);
        }
        if !answers.untouched(8 * room, answer_at_end)
            || !work_pages.untouched(work_size, work_at_end)
            || !sheet_pages.untouched(entry.sheet.len(), sheet_at_end)
            || sheet != entry.sheet
        {
            differ("a byte beside a slice was written", &entry);
        }
        sheet_pages.allow(READ_WRITE);

        done += 1;
        of[refusal as usize] += 1;
        steps += expected[2];
        if refusal == 0 && runs_each > 0 {
            let Some(figures) = oracle::runs(&entry.sheet, random.next(), runs_each) else {
                differ("an accepted sheet does not read", &entry)
            };
            if figures.finished != runs_each || !in_window(&figures, expected[3], expected[4]) {
                differ("a run does not keep the window", &entry);
            }
            runs += runs_each;
            longest = longest.max(figures.longest);

            let Some((figures, all)) = oracle::every_run(&entry.sheet, MOST_EVENTS) else {
                differ("an accepted sheet does not read", &entry)
            };
            if all && figures.finished == 0 || !in_window(&figures, expected[3], expected[4]) {
                differ("one of all runs does not keep the window", &entry);
            }
            if all {
                followed_whole += 1;
                of_these += figures.finished;
            }
        }
    }
    println!("{done} sheets from seed {seed}, {steps} steps: the same five numbers, the work buffer all zeros, nothing beside a slice touched");
    println!("{short} with an answer of fewer than five numbers; {passed_over} more sheets passed over, of too many steps");
    println!("by refusal, 0 to 16: {of:?}");
    println!("{runs} runs of accepted sheets, the longest of {longest} events: each with a result, finished inside the window");
    println!("{followed_whole} accepted sheets with all of their runs, {of_these} runs: likewise");
    println!("{:.0} seconds", start.elapsed().as_secs_f64());
}

fn guarded(all: &mut Vec<Option<Guarded>>, pages: usize) -> &mut Guarded {
    if all.len() <= pages {
        all.resize_with(pages + 1, || None);
    }
    all[pages].get_or_insert_with(|| Guarded::new(pages))
}
