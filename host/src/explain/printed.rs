//! Reads a printed plan: T, then position, card and cycle for each frame; or the one line of a refusal.
//! It looks at the text alone. Whether the plan fits a ticket is asked later.

use super::digits::{number, END};
use super::place::{in_line_of_digits, Place};

const T_DIGITS: usize = 4;
const POSITION_DIGITS: usize = 4;
const CARD_DIGITS: usize = 2;
const CYCLE_DIGITS: usize = 4;

const FIRST_LINE_BYTES: usize = T_DIGITS + 1;
const FRAME_DIGITS: usize = POSITION_DIGITS + CARD_DIGITS + CYCLE_DIGITS;
const FRAME_LINE_BYTES: usize = FRAME_DIGITS + 1;

/// A frame's line.
pub struct Frame {
    pub position: u16,
    pub card: u16,
    pub cycle: u16,
}

/// What a printed text says.
pub enum Printed {
    Plan { cycles: u16, frames: Vec<Frame> },
    Refusal(u8),
}

/// How many bytes the printed plan of so many frames has. The line of a refusal is never longer.
pub fn length(frames: usize) -> usize {
    FIRST_LINE_BYTES + FRAME_LINE_BYTES * frames
}

/// The line of the frame at a position, counted from 1. T has line 1.
pub fn line_of(position: usize) -> usize {
    position + 2
}

/// Reads a text, or answers where it is no printed plan.
pub fn read(text: &[u8]) -> Result<Printed, Place> {
    if let Some(place) = in_line_of_digits(text, 1, 0, T_DIGITS) {
        return Err(place);
    }
    if let Some(refusal) = refusal(text) {
        return Ok(Printed::Refusal(refusal));
    }
    let (first, rest) = text.split_at(FIRST_LINE_BYTES);
    let mut frames = Vec::new();
    for (position, line) in rest.chunks(FRAME_LINE_BYTES).enumerate() {
        if let Some(place) = in_line_of_digits(text, line_of(position), length(position), FRAME_DIGITS) {
            return Err(place);
        }
        frames.push(frame(line));
    }
    Ok(Printed::Plan {
        cycles: value(&first[..T_DIGITS]),
        frames,
    })
}

/// The number of a refusal's line: FF and 2 digits, and nothing after it.
fn refusal(text: &[u8]) -> Option<u8> {
    let (mark, number_of) = text.strip_suffix(&[END])?.split_at_checked(2)?;
    (text.len() == FIRST_LINE_BYTES && number(mark) == Some(0xFF)).then_some(())?;
    u8::try_from(number(number_of)?).ok()
}

/// A frame's line, which is known to be digits and an end byte.
fn frame(line: &[u8]) -> Frame {
    let (position, rest) = line.split_at(POSITION_DIGITS);
    let (card, rest) = rest.split_at(CARD_DIGITS);
    Frame {
        position: value(position),
        card: value(card),
        cycle: value(&rest[..CYCLE_DIGITS]),
    }
}

fn value(digits: &[u8]) -> u16 {
    number(digits).unwrap_or(0)
}
