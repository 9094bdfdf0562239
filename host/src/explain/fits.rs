//! Whether the lines of a printed plan fit a ticket: a line for each frame, each with its own position and card.
//! The checker sees cycles alone, so this is asked before it.

use super::digits::number;
use super::place::CARD_DIGITS;
use super::printed::{line_of, Frame};
use super::shown::count;
use crate::{Position, Ticket};

/// Compares line by line. An error names the first line that does not fit.
pub fn all_lines(ticket: &[u8], read: &Ticket, frames: &[Frame]) -> Result<(), Vec<String>> {
    for (position, frame) in (0..read.frames).zip(frames) {
        line(ticket, position, frame)?;
    }
    if frames.len() == usize::from(read.frames) {
        return Ok(());
    }
    let has = count(frames.len(), "frame line");
    let wanted = count(read.frames.into(), "frame");
    Err(vec![format!("It has {has}. The ticket has {wanted}.")])
}

/// Compares the line that should be the one of the frame at this position.
fn line(ticket: &[u8], position: u16, frame: &Frame) -> Result<(), Vec<String>> {
    let line = line_of(position.into());
    if frame.position != position {
        return Err(vec![
            format!(
                "Line {line} has position {}. It must have position {position}.",
                frame.position
            ),
            "Positions are counted from 0, one on each line.".to_string(),
        ]);
    }
    match card(ticket, position) {
        Some(card) if card != frame.card => Err(vec![format!(
            "Line {line} has card {}. The ticket has card {card} at position {position}.",
            frame.card
        )]),
        _ => Ok(()),
    }
}

/// The card of the frame at a position, from the line that the library hands back: its first digits in every edition.
fn card(ticket: &[u8], position: u16) -> Option<u16> {
    number(crate::line(ticket, Position(position)).ok()?.get(..CARD_DIGITS)?)
}
