//! zumbeiry_mend for Rust; zumbeiry.h says what it promises. It links libmend.a.

#[link(name = "mend", kind = "static")]
extern "C" {
    fn zumbeiry_mend(
        sheet: *const u8,
        sheet_length: usize,
        mended: *mut u8,
        mended_length: usize,
        changes: *mut u32,
        changes_length: usize,
        answer: *mut u64,
        answer_length: usize,
    ) -> u32;
}

/// Bytes that hold every mended sheet, and numbers that hold every list of changes.
pub const MOST_BYTES: usize = 16_384;
pub const MOST_LISTED: usize = 594;

/// Refusal, place, bytes written and numbers listed go to the front of `answer`, if it has room for four; the refusal is returned.
pub fn mend_into(sheet: &[u8], mended: &mut [u8], changes: &mut [u32], answer: &mut [u64]) -> u32 {
    // SAFETY: each pointer and length are those of a slice, and the borrows keep the slices apart.
    unsafe {
        zumbeiry_mend(
            sheet.as_ptr(),
            sheet.len(),
            mended.as_mut_ptr(),
            mended.len(),
            changes.as_mut_ptr(),
            changes.len(),
            answer.as_mut_ptr(),
            answer.len(),
        )
    }
}

/// Refusal, place, bytes written to the front of `mended`, and numbers listed at the front of `changes`, two for each change.
pub fn mend(sheet: &[u8], mended: &mut [u8], changes: &mut [u32]) -> [u64; 4] {
    let mut answer = [0; 4];
    mend_into(sheet, mended, changes, &mut answer);
    answer
}
