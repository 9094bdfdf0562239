//! Digits and the end byte: what a line of a ticket or of a printed plan is made of.
//! The one search of `explain`, for the first byte of such a line that is wrong, stands here.

/// The byte that ends each line.
pub const END: u8 = 0x0A;

/// The value of a digit, 0-9 and A-F, in either case.
pub fn digit(byte: u8) -> Option<u32> {
    match byte {
        b'0'..=b'9' => Some(u32::from(byte - b'0')),
        b'A'..=b'F' => Some(u32::from(byte - b'A') + 10),
        b'a'..=b'f' => Some(u32::from(byte - b'a') + 10),
        _ => None,
    }
}

/// The number that at most 4 digits stand for, or none where a byte is no digit.
pub fn number(digits: &[u8]) -> Option<u16> {
    u16::try_from(long_number(digits)?).ok()
}

/// The same for at most 8 digits.
pub fn long_number(digits: &[u8]) -> Option<u32> {
    digits
        .iter()
        .try_fold(0, |value: u32, &byte| value.checked_mul(16)?.checked_add(digit(byte)?))
}

/// For a line of that many digits and an end byte, from `start` on: the offset of the first byte that is another.
/// Where the text ends too early, that is its length.
pub fn first_wrong(text: &[u8], start: usize, digits: usize) -> Option<usize> {
    let end = start + digits;
    let is_right = |offset: usize| match text.get(offset) {
        Some(&byte) if offset < end => digit(byte).is_some(),
        Some(&byte) => byte == END,
        None => false,
    };
    (start..=end).find(|&offset| !is_right(offset))
}
