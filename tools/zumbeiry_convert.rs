//! zumbeiry_convert for Rust; zumbeiry.h says what it promises. It links libconvert.a.

#[link(name = "convert", kind = "static")]
extern "C" {
    fn zumbeiry_convert(
        text: *const u8,
        text_length: usize,
        sheet: *mut u8,
        sheet_length: usize,
        answer: *mut u64,
        answer_length: usize,
    ) -> u32;
}

/// Bytes that hold every sheet.
pub const MOST_BYTES: usize = 16_384;

/// Refusal, place and bytes written go to the front of `answer`, if it has room for three; the refusal is returned.
pub fn convert_into(text: &[u8], sheet: &mut [u8], answer: &mut [u64]) -> u32 {
    // SAFETY: each pointer and length are those of a slice, and the borrows keep the slices apart.
    unsafe {
        zumbeiry_convert(
            text.as_ptr(),
            text.len(),
            sheet.as_mut_ptr(),
            sheet.len(),
            answer.as_mut_ptr(),
            answer.len(),
        )
    }
}

/// Refusal, place in the text, and bytes written to the front of `sheet`.
pub fn convert(text: &[u8], sheet: &mut [u8]) -> [u64; 3] {
    let mut answer = [0; 3];
    convert_into(text, sheet, &mut answer);
    answer
}
