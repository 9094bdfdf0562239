//! Where in a ticket a refusal stands. The refusal's number is the library's; only its place is looked for here.
//! The widths of the header's fields and of a frame line, and their limits, stand here and nowhere else in `explain`.

use super::digits::{first_wrong, long_number, number};
use crate::raw::MAX_POOL;
use std::ops::Range;

/// A number in the header: where its digits stand, and its limits, which are both allowed.
#[derive(Debug, PartialEq, Eq)]
pub struct Field {
    pub refusal: u8,
    pub name: &'static str,
    pub offset: usize,
    pub digits: usize,
    pub least: u16,
    pub most: u16,
}

#[rustfmt::skip]
pub const FIELDS: [Field; 5] = [
    Field { refusal: 2, name: "edition", offset: 0, digits: 2, least: 1, most: 2 },
    Field { refusal: 3, name: "mode", offset: 2, digits: 2, least: 0, most: 2 },
    Field { refusal: 4, name: "number of cards", offset: 4, digits: 2, least: 1, most: 32 },
    Field { refusal: 5, name: "pool", offset: 6, digits: 4, least: 1, most: MAX_POOL as u16 },
    Field { refusal: 6, name: "number of frames", offset: 10, digits: 4, least: 0, most: 4096 },
];

pub const EDITION: &Field = &FIELDS[0];
const CARDS: &Field = &FIELDS[2];
pub const POOL: &Field = &FIELDS[3];
const FRAMES: &Field = &FIELDS[4];

/// The digits of the header; its end byte follows.
pub const HEADER_DIGITS: usize = FRAMES.offset + FRAMES.digits;

/// What a frame line has: the digits of its card and, in edition 02, those of its capture second.
pub const CARD_DIGITS: usize = 2;
pub const SECOND_DIGITS: usize = 8;

/// The digits of a frame line in an edition; its end byte follows. No line of another edition is looked at: it is
/// refused by 2.
pub fn line_digits(edition: u16) -> usize {
    match edition {
        1 => CARD_DIGITS,
        2 => CARD_DIGITS + SECOND_DIGITS,
        _ => 0,
    }
}

impl Field {
    /// Where the field's digits stand.
    pub fn range(&self) -> Range<usize> {
        self.offset..self.offset + self.digits
    }

    /// What a ticket's header says, or none where these are not digits.
    pub fn value(&self, ticket: &[u8]) -> Option<u16> {
        number(ticket.get(self.range())?)
    }
}

/// How many frames the header says.
pub fn frames(ticket: &[u8]) -> Option<u16> {
    FRAMES.value(ticket)
}

/// The digits with which the header says how many frames.
pub fn frames_digits(ticket: &[u8]) -> &[u8] {
    ticket.get(FRAMES.range()).unwrap_or_default()
}

/// The edition that the header says, 0 where it says none.
pub fn edition(ticket: &[u8]) -> u16 {
    EDITION.value(ticket).unwrap_or(0)
}

/// Where the digits of the frame line at a position stand. Positions are counted from 0.
pub fn line(ticket: &[u8], position: usize) -> Range<usize> {
    let digits = line_digits(edition(ticket));
    let start = HEADER_DIGITS + 1 + (digits + 1) * position;
    start..start + digits
}

/// What should stand at a place.
#[derive(Debug, PartialEq, Eq)]
pub enum Expected {
    Digit,
    EndByte,
    /// A number of the header within its limits.
    Field(&'static Field),
    /// A card below this number of cards.
    CardBelow(u16),
    /// A second that is not lower than this one, of the line before.
    SecondFrom(u32),
    /// No byte: the text should have ended.
    EndOfText,
}

/// A place in a text, and what should stand there.
#[derive(Debug, PartialEq, Eq)]
pub struct Place {
    /// Counted from 0, from the start of the text. It may be the text's length: then the text ends there.
    pub offset: usize,
    /// How many bytes are meant.
    pub bytes: usize,
    /// Counted from 1. The header is line 1.
    pub line: usize,
    /// The first byte's number in its line, counted from 1.
    pub byte: usize,
    pub expected: Expected,
}

/// The place of a refusal, 1 to 9 or 17, which the library gave to this ticket. For another number there is none.
pub fn find(ticket: &[u8], refusal: u8) -> Option<Place> {
    match refusal {
        1 => in_line_of_digits(ticket, 1, 0, HEADER_DIGITS),
        2..=6 => field(refusal),
        7 => positions(ticket).find_map(|position| malformed(ticket, position)),
        8 => positions(ticket).find_map(|position| bad_card(ticket, position)),
        9 => after_last_line(ticket),
        17 => positions(ticket).find_map(|position| falling_second(ticket, position)),
        _ => None,
    }
}

/// The first byte that is wrong in a line of that many digits and an end byte, which begins at `start`.
pub fn in_line_of_digits(text: &[u8], line: usize, start: usize, digits: usize) -> Option<Place> {
    let offset = first_wrong(text, start, digits)?;
    let byte = offset - start + 1;
    Some(Place {
        offset,
        bytes: 1,
        line,
        byte,
        expected: if byte > digits {
            Expected::EndByte
        } else {
            Expected::Digit
        },
    })
}

fn field(refusal: u8) -> Option<Place> {
    let field = FIELDS.iter().find(|field| field.refusal == refusal)?;
    Some(Place {
        offset: field.offset,
        bytes: field.digits,
        line: 1,
        byte: field.offset + 1,
        expected: Expected::Field(field),
    })
}

/// The positions that the header says, from 0 on.
fn positions(ticket: &[u8]) -> Range<usize> {
    0..frames(ticket).map_or(0, usize::from)
}

/// The first wrong byte of the line at this position.
fn malformed(ticket: &[u8], position: usize) -> Option<Place> {
    let line = line(ticket, position);
    in_line_of_digits(ticket, position + 2, line.start, line.len())
}

/// The card of the line at this position, if it is not below cards.
fn bad_card(ticket: &[u8], position: usize) -> Option<Place> {
    let start = line(ticket, position).start;
    let card = number(ticket.get(start..start + CARD_DIGITS)?)?;
    let cards = CARDS.value(ticket)?;
    (card >= cards).then_some(Place {
        offset: start,
        bytes: CARD_DIGITS,
        line: position + 2,
        byte: 1,
        expected: Expected::CardBelow(cards),
    })
}

/// The second of the line at this position, if it is lower than that of the line before.
fn falling_second(ticket: &[u8], position: usize) -> Option<Place> {
    let before = second(ticket, position.checked_sub(1)?)?;
    (second(ticket, position)? < before).then_some(Place {
        offset: line(ticket, position).start + CARD_DIGITS,
        bytes: SECOND_DIGITS,
        line: position + 2,
        byte: CARD_DIGITS + 1,
        expected: Expected::SecondFrom(before),
    })
}

/// The capture second of the line at a position: what stands there behind the card.
fn second(ticket: &[u8], position: usize) -> Option<u32> {
    long_number(ticket.get(line(ticket, position))?.get(CARD_DIGITS..)?)
}

/// The byte after the last line that the header says.
fn after_last_line(ticket: &[u8]) -> Option<Place> {
    let frames = usize::from(frames(ticket)?);
    Some(Place {
        offset: line(ticket, frames).start,
        bytes: 1,
        line: frames + 2,
        byte: 1,
        expected: Expected::EndOfText,
    })
}
