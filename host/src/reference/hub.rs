//! A field hub with eight cards: "takes a pattern for each camera and a list of camera numbers, and gives the cards".

/// "The eight patterns are fixed: 01234567, 03614725, 05274163, 07654321, 45670123, 47250361, 41630527, 43210765." Each is
/// written as there, a digit for each card.
const PATTERNS: [&[u8; 8]; 8] = [
    b"01234567",
    b"03614725",
    b"05274163",
    b"07654321",
    b"45670123",
    b"47250361",
    b"41630527",
    b"43210765",
];

/// "Turned away: 20 for a camera count not 1 to 6 or a pattern not 0 to 7, first of all; 21 for a camera number not below
/// the count, after 6", and "lists over 4,096 give 6".
pub fn allowed(patterns: &[u8], cameras: &[u8]) -> Result<(), u8> {
    let count = patterns.len();
    if !(1..=6).contains(&count) || patterns.iter().any(|&pattern| pattern > 7) {
        return Err(20);
    }
    if cameras.len() > 4096 {
        return Err(6);
    }
    if cameras.iter().any(|&camera| usize::from(camera) >= count) {
        return Err(21);
    }
    Ok(())
}

/// "Frame k of a camera, from 0, goes to place k mod 8 of that camera's pattern." The frames of a camera are counted anew
/// for every frame of the list.
pub fn cards(patterns: &[u8], cameras: &[u8]) -> Vec<u8> {
    let card = |(position, &camera): (usize, &u8)| {
        let k = cameras[..position].iter().filter(|&&earlier| earlier == camera).count();
        let pattern = PATTERNS[usize::from(patterns[usize::from(camera)])];
        pattern[k % 8] - b'0'
    };
    cameras.iter().enumerate().map(card).collect()
}
