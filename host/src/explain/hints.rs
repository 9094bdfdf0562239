//! The commonest causes of a refusal, seen from what stands at its place. Often there is none to name.
//! A hint is a guess about how the text was made; what is wrong with it is said without it.

use super::digits::{digit, first_wrong, number, END};
use super::place::{self, Expected, Place};
use super::shown::{byte_order_mark, count};

/// Causes that the byte itself shows. For tickets and for printed plans.
pub fn of_byte(text: &[u8], place: &Place) -> Option<String> {
    if text.is_empty() {
        return Some("The file is empty.".to_string());
    }
    if place.offset == 0 {
        if let Some(mark) = byte_order_mark(text) {
            return Some(format!(
                "The file begins with a {mark}. Save it as plain ASCII text, without it."
            ));
        }
    }
    match (&place.expected, text.get(place.offset)) {
        (Expected::Digit | Expected::EndByte, Some(b'\r')) => Some(of_carriage_return(text, place)),
        (Expected::Digit, Some(&END)) if place.byte == 1 => Some("The line is blank.".to_string()),
        (Expected::Digit, Some(&END)) => {
            let digits = count(place.byte - 1, "digit");
            Some(format!("The line is too short. It has only {digits}."))
        }
        (Expected::EndByte, Some(byte)) if digit(*byte).is_some() => {
            let digits = count(place.byte - 1, "digit");
            Some(format!("The line is too long. It must have {digits}."))
        }
        (Expected::EndByte, None) => Some("The last line has no end byte. Some editors leave it out.".to_string()),
        _ => None,
    }
}

fn of_carriage_return(text: &[u8], place: &Place) -> String {
    let ends = if text.get(place.offset + 1) == Some(&END) {
        "CR LF (0D 0A)"
    } else {
        "a carriage return (0D)"
    };
    format!("The line ends in {ends}. Each line must end in the end byte 0A alone.")
}

/// Causes that a ticket shows beside the byte.
pub fn of_ticket(ticket: &[u8], place: &Place) -> Vec<String> {
    let cause = match &place.expected {
        Expected::Field(field) => return of_field(ticket, field),
        Expected::CardBelow(cards) => of_card(ticket, place, *cards),
        Expected::SecondFrom(_) => Some(of_falling_second()),
        Expected::EndOfText => Some(of_bytes_after(ticket, place)),
        Expected::Digit | Expected::EndByte => return of_line(ticket, place),
    };
    cause.into_iter().collect()
}

fn of_field(ticket: &[u8], field: &place::Field) -> Vec<String> {
    match field.refusal {
        2 => vec!["Only editions 01 and 02 are known.".to_string()],
        3 => vec!["The modes are 00 read, 01 save, 02 save and keep.".to_string()],
        _ => {
            let digits = ticket.get(field.range()).unwrap_or_default();
            let decimal = meant_as_decimal(digits, field.least, field.most);
            decimal.into_iter().chain(of_large_pool(ticket, field)).collect()
        }
    }
}

/// A pool over the limit, which was a higher one once.
fn of_large_pool(ticket: &[u8], field: &place::Field) -> Option<String> {
    let most = field.most;
    let is_larger = field == place::POOL && field.value(ticket)? > most;
    is_larger.then(|| format!("Docks have at most {most} buffers; tickets filed earlier may ask for more."))
}

fn of_card(ticket: &[u8], place: &Place, cards: u16) -> Option<String> {
    let digits = ticket.get(place.offset..place.offset + place.bytes)?;
    if number(digits) == Some(cards) {
        let highest = cards.saturating_sub(1);
        return Some(format!("Cards are counted from 0, so the highest card is {highest}."));
    }
    meant_as_decimal(digits, 0, cards.saturating_sub(1))
}

/// Numbers are hexadecimal. Digits that would be in range as a decimal number were perhaps meant so.
fn meant_as_decimal(digits: &[u8], least: u16, most: u16) -> Option<String> {
    let text = std::str::from_utf8(digits).ok()?;
    let decimal: u16 = text.parse().ok()?;
    let width = digits.len();
    (least..=most)
        .contains(&decimal)
        .then(|| format!("Numbers are hexadecimal. If {text} was meant as a decimal number, write {decimal:0width$X}."))
}

fn of_falling_second() -> String {
    "The frames are not in the order in which they were captured, or two tickets were put together.".to_string()
}

/// A line that is not digits and an end byte. The header has no causes here.
fn of_line(ticket: &[u8], place: &Place) -> Vec<String> {
    let Some(position) = place.line.checked_sub(2) else {
        return Vec::new();
    };
    let mut hints = of_early_end(ticket, place, position);
    hints.extend(of_other_edition(ticket, position));
    hints
}

/// The line is a whole one of another edition than the header says.
fn of_other_edition(ticket: &[u8], position: usize) -> Option<String> {
    let own = place::edition(ticket);
    let start = place::line(ticket, position).start;
    let is_line_of = |edition: &u16| first_wrong(ticket, start, place::line_digits(*edition)).is_none();
    let other = (place::EDITION.least..=place::EDITION.most).find(is_line_of)?;
    Some(format!(
        "This is a line of edition {other:02X}. The header says edition {own:02X}."
    ))
}

/// The text ends within the frame lines. Where only the last end byte is missing, that is said already.
fn of_early_end(ticket: &[u8], place: &Place, position: usize) -> Vec<String> {
    let Some(frames) = place::frames(ticket) else {
        return Vec::new();
    };
    let is_last_end = place.expected == Expected::EndByte && position + 1 == usize::from(frames);
    if place.offset < ticket.len() || is_last_end {
        return Vec::new();
    }
    let lines = count(position, "whole frame line");
    let mut hints = vec![format!("The text ends early. It has {lines}; {}.", header_says(ticket))];
    if let Ok(lines) = u16::try_from(position) {
        hints.extend(meant_as_decimal(place::frames_digits(ticket), lines, lines));
    }
    hints
}

fn of_bytes_after(ticket: &[u8], place: &Place) -> String {
    let after = ticket.get(place.offset..).unwrap_or_default();
    let ends = after.iter().filter(|&&byte| byte == END).count();
    let lines = ends + usize::from(after.last() != Some(&END));
    if after.iter().all(|byte| matches!(*byte, END | b'\r' | b' ' | b'\t')) {
        let blank = count(lines, "blank line");
        return format!("The text has {blank} at its end.");
    }
    let lines = count(lines, "line");
    format!("The text has {lines} too many; {}.", header_says(ticket))
}

/// What the header says of the frames, as a decimal number and in its digits.
fn header_says(ticket: &[u8]) -> String {
    let frames = count(place::frames(ticket).unwrap_or(0).into(), "frame");
    let digits = String::from_utf8_lossy(place::frames_digits(ticket));
    format!("the header says {frames} ({digits} hex)")
}
