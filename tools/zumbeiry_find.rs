//! zumbeiry_find for Rust; zumbeiry.h says what it promises. It links libshelf.a, and is a file of its own so that a program
//! needs the archives of its own calls alone.

#[link(name = "shelf", kind = "static")]
extern "C" {
    fn zumbeiry_find(
        name: u8,
        customer: *const u8,
        customer_length: usize,
        house: *const u8,
        house_length: usize,
        answer: *mut u64,
        answer_length: usize,
    ) -> u32;
}

/// What the lookup gives.
pub struct Answer<'a> {
    /// 0 if the sheet is found.
    pub refusal: u64,
    /// 0 the customer's, 1 the house's.
    pub file: u64,
    /// The offset in that file of the sheet's first byte, or of the field at fault.
    pub place: u64,
    /// That very part of the file; where it is refused, the empty start of the house's file.
    pub sheet: &'a [u8],
}

/// Refusal, file, place and size go to the front of `answer`, if it has room for four; the refusal is returned.
pub fn find_into(name: u8, customer: &[u8], house: &[u8], answer: &mut [u64]) -> u32 {
    // SAFETY: each pointer and length are those of a slice, and the borrows keep the answer apart from the files.
    unsafe {
        zumbeiry_find(
            name,
            customer.as_ptr(),
            customer.len(),
            house.as_ptr(),
            house.len(),
            answer.as_mut_ptr(),
            answer.len(),
        )
    }
}

/// The sheet with the name, from the customer's file or else from the house's.
pub fn find<'a>(name: u8, customer: &'a [u8], house: &'a [u8]) -> Answer<'a> {
    let mut answer = [0; 4];
    find_into(name, customer, house, &mut answer);
    let [refusal, file, place, size] = answer;
    let sheet = match (refusal, file) {
        (0, 0) => &customer[place as usize..][..size as usize],
        (0, _) => &house[place as usize..][..size as usize],
        _ => &house[..0],
    };
    Answer { refusal, file, place, sheet }
}
