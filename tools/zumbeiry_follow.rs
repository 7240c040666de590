//! zumbeiry_follow for Rust; zumbeiry.h says what it promises. It links librecord.a.

#[link(name = "record", kind = "static")]
extern "C" {
    fn zumbeiry_follow(
        sheet: *const u8,
        sheet_length: usize,
        record: *const u8,
        record_length: usize,
        answer: *mut u64,
        answer_length: usize,
    ) -> u32;
}

/// Refusal, file, place, finished and tick go to the front of `answer`, if it has room for five; the refusal is returned.
pub fn follow_into(sheet: &[u8], record: &[u8], answer: &mut [u64]) -> u32 {
    // SAFETY: each pointer and length are those of a slice, and the borrows keep the answer apart from sheet and record.
    unsafe {
        zumbeiry_follow(sheet.as_ptr(), sheet.len(), record.as_ptr(), record.len(), answer.as_mut_ptr(), answer.len())
    }
}

/// Refusal, file (0 the sheet, 1 the record), place, finished (0 or 1) and tick.
pub fn follow(sheet: &[u8], record: &[u8]) -> [u64; 5] {
    let mut answer = [0; 5];
    follow_into(sheet, record, &mut answer);
    answer
}
