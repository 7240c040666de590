//! zumbeiry_print for Rust; zumbeiry.h says what it promises. It links libprint.a.

#[link(name = "print", kind = "static")]
extern "C" {
    fn zumbeiry_print(
        sheet: *const u8,
        sheet_length: usize,
        text: *mut u8,
        text_length: usize,
        answer: *mut u64,
        answer_length: usize,
    ) -> u32;
}

/// Bytes that hold every printed text.
pub const MOST_BYTES: usize = 98_304;

/// Refusal, place and bytes written go to the front of `answer`, if it has room for three; the refusal is returned.
pub fn print_into(sheet: &[u8], text: &mut [u8], answer: &mut [u64]) -> u32 {
    // SAFETY: each pointer and length are those of a slice, and the borrows keep the slices apart.
    unsafe {
        zumbeiry_print(
            sheet.as_ptr(),
            sheet.len(),
            text.as_mut_ptr(),
            text.len(),
            answer.as_mut_ptr(),
            answer.len(),
        )
    }
}

/// Refusal, place in the sheet, and bytes written to the front of `text`.
pub fn print(sheet: &[u8], text: &mut [u8]) -> [u64; 3] {
    let mut answer = [0; 3];
    print_into(sheet, text, &mut answer);
    answer
}
