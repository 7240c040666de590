//! zumbeiry_check for Rust; zumbeiry.h says what it promises. It links liblabel.a.

#[link(name = "label", kind = "static")]
extern "C" {
    fn zumbeiry_check(
        sheet: *const u8,
        sheet_length: usize,
        work: *mut i32,
        work_length: usize,
        answer: *mut u64,
        answer_length: usize,
    ) -> u32;
}

/// Refusal, place, steps, low and high go to the front of `answer`, if it has room for five; the refusal is returned.
pub fn check_into(sheet: &[u8], work: &mut [i32], answer: &mut [u64]) -> u32 {
    // SAFETY: each pointer and length are those of a slice, and the borrows keep the slices apart.
    unsafe {
        zumbeiry_check(sheet.as_ptr(), sheet.len(), work.as_mut_ptr(), work.len(), answer.as_mut_ptr(), answer.len())
    }
}

/// Refusal, place, steps, low and high.
pub fn check(sheet: &[u8], work: &mut [i32]) -> [u64; 5] {
    let mut answer = [0; 5];
    check_into(sheet, work, &mut answer);
    answer
}
