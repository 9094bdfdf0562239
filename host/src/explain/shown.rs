//! A place in words: where it is, what stands there, and what was expected. For tickets and for printed plans.
//! A byte is shown by its sign or its name, and otherwise in 2 digits.

use super::digits::{long_number, END};
use super::place::{Expected, Place, CARD_DIGITS, SECOND_DIGITS};

/// The marks that some editors put before a text.
const BYTE_ORDER_MARKS: [(&[u8], &str); 3] = [
    (&[0xEF, 0xBB, 0xBF], "byte order mark EF BB BF"),
    (&[0xFF, 0xFE], "byte order mark FF FE"),
    (&[0xFE, 0xFF], "byte order mark FE FF"),
];

/// A number of things: "1 frame", "3 frames".
pub fn count(number: usize, thing: &str) -> String {
    let ending = if number == 1 { "" } else { "s" };
    format!("{number} {thing}{ending}")
}

/// The three lines about a place.
pub fn lines(text: &[u8], place: &Place) -> Vec<String> {
    vec![
        format!("Place:    {}", position(place)),
        format!("Found:    {}", found(text, place)),
        format!("Expected: {}", expected(&place.expected)),
    ]
}

/// A line that names a cause.
pub fn hint(cause: &str) -> String {
    format!("Hint:     {cause}")
}

fn position(place: &Place) -> String {
    let Place {
        offset,
        bytes,
        line,
        byte,
        ..
    } = place;
    if *bytes == 1 {
        format!("line {line}, byte {byte}; offset {offset} from the start of the file")
    } else {
        let (last_byte, last_offset) = (byte + bytes - 1, offset + bytes - 1);
        format!(
            "line {line}, bytes {byte} to {last_byte}; offsets {offset} to {last_offset} from the start of the file"
        )
    }
}

fn found(text: &[u8], place: &Place) -> String {
    let bytes = text.get(place.offset..place.offset + place.bytes).unwrap_or_default();
    match (&place.expected, long_number(bytes)) {
        (Expected::Field(_) | Expected::CardBelow(_) | Expected::SecondFrom(_), Some(value)) => {
            format!("{} hex, which is {value}", String::from_utf8_lossy(bytes))
        }
        _ => byte_order_mark(text)
            .filter(|_| place.offset == 0)
            .map_or_else(|| byte_at(text, place.offset), str::to_string),
    }
}

/// The byte order mark at the start of a text.
pub fn byte_order_mark(text: &[u8]) -> Option<&'static str> {
    let mark = BYTE_ORDER_MARKS.iter().find(|(bytes, _)| text.starts_with(bytes));
    mark.map(|&(_, name)| name)
}

fn byte_at(text: &[u8], offset: usize) -> String {
    match text.get(offset) {
        None => "the text ends here".to_string(),
        Some(&END) => "the end byte 0A".to_string(),
        Some(b'\r') => "carriage return 0D".to_string(),
        Some(b'\t') => "tab 09".to_string(),
        Some(b' ') => "space 20".to_string(),
        Some(byte) if byte.is_ascii_graphic() => format!("'{}'", char::from(*byte)),
        Some(byte) => format!("byte {byte:02X}"),
    }
}

fn expected(expected: &Expected) -> String {
    match expected {
        Expected::Digit => "a digit, 0 to 9, A to F or a to f".to_string(),
        Expected::EndByte => "the end byte 0A".to_string(),
        Expected::Field(field) => {
            let limits = range(field.least.into(), field.most.into(), field.digits);
            format!("the {}: {limits}", field.name)
        }
        Expected::CardBelow(cards) => {
            let highest = cards.saturating_sub(1);
            format!(
                "a card: {}; the header says {}",
                range(0, highest.into(), CARD_DIGITS),
                count((*cards).into(), "card")
            )
        }
        Expected::SecondFrom(before) => {
            format!("a second not lower than that of the line before: {before:0SECOND_DIGITS$X} hex, which is {before}")
        }
        Expected::EndOfText => "the end of the text".to_string(),
    }
}

/// Two numbers in so many digits, and in decimal.
pub fn range(least: u32, most: u32, width: usize) -> String {
    format!("{least:0width$X} to {most:0width$X} hex, which is {least} to {most}")
}
