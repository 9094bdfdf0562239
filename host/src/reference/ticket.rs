//! The ticket, editions 01 and 02: what its bytes say, and the grounds for turning it down (1 to 9 and 17, and 16 for a
//! line).

use super::MAX_POOL;
use crate::raw::{Part, Position};

pub const READ: u8 = 0;
pub const SAVE: u8 = 1;
pub const SAVE_AND_KEEP: u8 = 2;

/// "Each line [...] ends in byte 0A hex."
const END: u8 = 0x0A;
/// "The header has 14 digits", and an end byte follows.
const HEADER_BYTES: usize = 15;
/// A line begins with "the card (2)".
const CARD_DIGITS: usize = 2;
/// "The capture second (8)" follows it in edition 02.
const SECOND_DIGITS: usize = 8;

/// An accepted ticket. The list has the card of each frame, in list order. "The second has no say in the plan": it is
/// there for 17, and to join two tickets.
pub struct Ticket {
    pub edition: u8,
    pub mode: u8,
    pub cards: u8,
    pub pool: u16,
    pub list: Vec<u8>,
    pub seconds: Vec<u32>,
    line_digits: usize,
}

impl Ticket {
    /// The table of refusals: "1 to 6, then line by line 7 before 8, then 9"; and 17 "after 7 and 8 of the same line".
    pub fn read(ticket: &[u8]) -> Result<Ticket, u8> {
        let digits = line_of_digits(ticket.get(..HEADER_BYTES)).ok_or(1)?;
        let edition = number(&digits[0..2]);
        let mode = number(&digits[2..4]);
        let cards = number(&digits[4..6]);
        let pool = number(&digits[6..10]);
        let frames = number(&digits[10..14]);
        let line_digits = line_digits(edition).ok_or(2)?;
        if mode > 2 {
            return Err(3);
        }
        if !(1..=32).contains(&cards) {
            return Err(4);
        }
        if !(1..=MAX_POOL).contains(&(pool as usize)) {
            return Err(5);
        }
        if frames > 4096 {
            return Err(6);
        }
        let (list, seconds) = read_frames(&ticket[HEADER_BYTES..], line_digits, frames, cards)?;
        Ok(Ticket {
            edition: edition as u8,
            mode: mode as u8,
            cards: cards as u8,
            pool: pool as u16,
            list,
            seconds,
            line_digits,
        })
    }

    /// "A count of frames for each of the 32 cards."
    pub fn counts(&self) -> [u16; 32] {
        let mut counts = [0; 32];
        for &card in &self.list {
            counts[usize::from(card)] += 1;
        }
        counts
    }
}

/// "The edition in the header decides": the digits of each frame line, or none for an edition "neither 01 nor 02".
fn line_digits(edition: u32) -> Option<usize> {
    match edition {
        1 => Some(CARD_DIGITS),
        2 => Some(CARD_DIGITS + SECOND_DIGITS),
        _ => None,
    }
}

/// "Frame lines are read from the part of the ticket that starts after its header": in each line 7 before 8 before 17,
/// then 9. The card and the second of each frame. No second is lower than the 0 before the first line. In edition 01 no
/// digits follow the card, which is the number 0 on every line.
fn read_frames(after_header: &[u8], line_digits: usize, frames: u32, cards: u32) -> Result<(Vec<u8>, Vec<u32>), u8> {
    let line_bytes = line_digits + 1;
    let mut rest = after_header;
    let (mut list, mut seconds) = (Vec::new(), Vec::new());
    let mut second_before = 0;
    for _ in 0..frames {
        let digits = line_of_digits(rest.get(..line_bytes)).ok_or(7)?;
        let (card, second) = digits.split_at(CARD_DIGITS);
        let (card, second) = (number(card), number(second));
        if card >= cards {
            return Err(8);
        }
        if second < second_before {
            return Err(17);
        }
        second_before = second;
        list.push(card as u8);
        seconds.push(second);
        rest = &rest[line_bytes..];
    }
    if !rest.is_empty() {
        return Err(9);
    }
    Ok((list, seconds))
}

/// "The reader hands back that frame's line as a part of the caller's own ticket, without its end byte."
/// 16 where the position is not below L.
pub fn line(ticket: &[u8], position: Position) -> Result<Part, u8> {
    let read = Ticket::read(ticket)?;
    let position = usize::from(position.0);
    if position >= read.list.len() {
        return Err(16);
    }
    Ok(Part {
        offset: HEADER_BYTES + (read.line_digits + 1) * position,
        length: read.line_digits,
    })
}

/// "Each line is .. hexadecimal .. and ends in byte 0A hex": the digits of such a line.
fn line_of_digits(line: Option<&[u8]>) -> Option<&[u8]> {
    let (&end, digits) = line?.split_last()?;
    let all_digits = digits.iter().all(|&byte| digit(byte).is_some());
    (all_digits && end == END).then_some(digits)
}

/// "a to f as well as A to F. A digit now has its value in either case": the value of a digit.
fn digit(byte: u8) -> Option<u32> {
    match byte {
        b'0'..=b'9' => Some(u32::from(byte - b'0')),
        b'A'..=b'F' => Some(u32::from(byte - b'A') + 10),
        b'a'..=b'f' => Some(u32::from(byte - b'a') + 10),
        _ => None,
    }
}

/// The number that digits stand for, the first digit being the highest.
fn number(digits: &[u8]) -> u32 {
    digits
        .iter()
        .fold(0, |value, &byte| 16 * value + digit(byte).unwrap_or(0))
}
