//! Numbers and names in the printed form (02, ticket 4): "no leading zeros", no space behind "a constant's minus". A
//! module of print_expression.rs and print_lines.rs.

/// The next bytes, so many of them.
pub fn take<'a>(bytes: &mut &'a [u8], count: usize) -> &'a [u8] {
    let (taken, rest) = bytes.split_at(count);
    *bytes = rest;
    taken
}

/// "Numbers have the high byte first and are unsigned"
pub fn unsigned(bytes: &[u8]) -> u64 {
    bytes.iter().fold(0, |number, &byte| number * 256 + u64::from(byte))
}

/// A number without a sign, in digits.
pub fn digits(bytes: &[u8]) -> String {
    let mut rest = unsigned(bytes);
    let mut digits = Vec::new();
    while rest > 0 || digits.is_empty() {
        digits.insert(0, b'0' + (rest % 10) as u8);
        rest /= 10;
    }
    String::from_utf8_lossy(&digits).into_owned()
}

/// "starting values and constants are signed, two's complement"
pub fn signed(bytes: &[u8]) -> String {
    let number = unsigned(bytes);
    if number < 1 << 31 {
        return digits(bytes);
    }
    let below_zero = (1u64 << 32) - number;
    format!("-{}", digits(&below_zero.to_be_bytes()))
}

/// A register, a variable or a lock, by its letter.
pub fn name(letter: &str, bytes: &[u8]) -> String {
    format!("{letter}{}", digits(bytes))
}

/// Two ends with nothing round `..`.
pub fn ends(bytes: &[u8], end: fn(&[u8]) -> String) -> String {
    let (low, high) = bytes.split_at(bytes.len() / 2);
    format!("{}..{}", end(low), end(high))
}
