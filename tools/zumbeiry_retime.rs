//! zumbeiry_change_times, zumbeiry_take_back and zumbeiry_preview for Rust; zumbeiry.h says what they promise. It links libretime.a.

#[link(name = "retime", kind = "static")]
extern "C" {
    fn zumbeiry_change_times(
        sheet: *mut u8,
        sheet_length: usize,
        thread: usize,
        statement: usize,
        least: u64,
        greatest: u64,
        answer: *mut u64,
        answer_length: usize,
    ) -> u32;

    fn zumbeiry_take_back(
        sheet: *mut u8,
        sheet_length: usize,
        thread: usize,
        statement: usize,
        old_least: u64,
        old_greatest: u64,
        new_least: u64,
        new_greatest: u64,
        answer: *mut u64,
        answer_length: usize,
    ) -> u32;

    fn zumbeiry_preview(
        sheet: *const u8,
        sheet_length: usize,
        copy: *mut u8,
        copy_length: usize,
        work: *mut i32,
        work_length: usize,
        thread: usize,
        statement: usize,
        least: u64,
        greatest: u64,
        answer: *mut u64,
        answer_length: usize,
    ) -> u32;
}

/// New times on a statement.
#[derive(Clone, Copy)]
pub struct Asked {
    /// From 0.
    pub thread: usize,
    /// Its number in the thread, from 0.
    pub statement: usize,
    pub least: u64,
    pub greatest: u64,
}

/// What a change did, and what takes it back; zeros where it was refused.
#[derive(Clone, Copy, PartialEq, Eq, Debug)]
pub struct Change {
    pub thread: usize,
    pub statement: usize,
    pub old_least: u64,
    pub old_greatest: u64,
    pub new_least: u64,
    pub new_greatest: u64,
}

/// What a change answers.
#[derive(Clone, Copy, PartialEq, Eq, Debug)]
pub struct Changed {
    pub refusal: u64,
    pub place: u64,
    pub change: Change,
}

/// Refusal and place, then the six numbers of the change, go to the front of `answer`, if it has room for eight; the refusal is
/// returned.
pub fn change_into(sheet: &mut [u8], asked: Asked, answer: &mut [u64]) -> u32 {
    // SAFETY: each pointer and length are those of a slice, and the borrows keep the slices apart.
    unsafe {
        zumbeiry_change_times(
            sheet.as_mut_ptr(),
            sheet.len(),
            asked.thread,
            asked.statement,
            asked.least,
            asked.greatest,
            answer.as_mut_ptr(),
            answer.len(),
        )
    }
}

/// With refusal 0 the sheet has the new times.
pub fn change(sheet: &mut [u8], asked: Asked) -> Changed {
    let mut answer = [0; 8];
    change_into(sheet, asked, &mut answer);
    let [refusal, place, thread, statement, old_least, old_greatest, new_least, new_greatest] = answer;
    // as they were given, or zeros
    let (thread, statement) = (thread as usize, statement as usize);
    Changed { refusal, place, change: Change { thread, statement, old_least, old_greatest, new_least, new_greatest } }
}

/// Refusal and place go to the front of `answer`, if it has room for two; the refusal is returned.
pub fn take_back_into(sheet: &mut [u8], change: Change, answer: &mut [u64]) -> u32 {
    // SAFETY: each pointer and length are those of a slice, and the borrows keep the slices apart.
    unsafe {
        zumbeiry_take_back(
            sheet.as_mut_ptr(),
            sheet.len(),
            change.thread,
            change.statement,
            change.old_least,
            change.old_greatest,
            change.new_least,
            change.new_greatest,
            answer.as_mut_ptr(),
            answer.len(),
        )
    }
}

/// Refusal and place; with refusal 0 the sheet has the old times again.
pub fn take_back(sheet: &mut [u8], change: Change) -> [u64; 2] {
    let mut answer = [0; 2];
    take_back_into(sheet, change, &mut answer);
    answer
}

/// Refusal, place, steps, low and high go to the front of `answer`, if it has room for five; the refusal is returned.
pub fn preview_into(sheet: &[u8], copy: &mut [u8], work: &mut [i32], asked: Asked, answer: &mut [u64]) -> u32 {
    // SAFETY: each pointer and length are those of a slice, and the borrows keep the slices apart.
    unsafe {
        zumbeiry_preview(
            sheet.as_ptr(),
            sheet.len(),
            copy.as_mut_ptr(),
            copy.len(),
            work.as_mut_ptr(),
            work.len(),
            asked.thread,
            asked.statement,
            asked.least,
            asked.greatest,
            answer.as_mut_ptr(),
            answer.len(),
        )
    }
}

/// Refusal, place, steps, low and high of the sheet with the new times; `copy` has room if it is as long as the sheet.
pub fn preview(sheet: &[u8], copy: &mut [u8], work: &mut [i32], asked: Asked) -> [u64; 5] {
    let mut answer = [0; 5];
    preview_into(sheet, copy, work, asked, &mut answer);
    answer
}
