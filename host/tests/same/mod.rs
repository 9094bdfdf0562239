//! The comparisons: each call's whole answer and the whole lent memory, of the library and of the reference; the library's
//! answers for two tickets that must be answered alike; and what must hold of a joined ticket, of a peak and of a hub's
//! cards.

pub mod foreign;
pub mod hub;
pub mod joining;
pub mod judging;
pub mod peaks;
pub mod planning;
pub mod reading;
pub mod saving;
pub mod seconds;
pub mod typing;
pub mod wrappers;

use crate::library;
use std::fmt::{Debug, Display};

/// Fails where the library's answer is not the reference's, and shows the input.
#[track_caller]
pub fn same<T: PartialEq + Debug>(ticket: &[u8], call: impl Display, library: &T, reference: &T) {
    let input = ticket.escape_ascii();
    assert!(
        library == reference,
        "{call} for ticket {input}\n  library: {library:?}\nreference: {reference:?}"
    );
}

/// A buffer's places before and behind the part that is lent. No call may touch them.
pub const MARGIN: usize = 8;

/// A buffer with margins, filled with a pattern that has no two equal neighbours.
pub fn marked<T>(places: usize, mark: fn(usize) -> T) -> Vec<T> {
    (0..places + 2 * MARGIN).map(mark).collect()
}

/// The part of a marked buffer that is lent.
pub fn lent<T>(buffer: &mut [T]) -> &mut [T] {
    let behind = buffer.len() - MARGIN;
    &mut buffer[MARGIN..behind]
}

/// The library answers two tickets alike: the counts, the plan, the printed text, and the check and the run of a plan.
/// What the header says and where a line stands is left to the caller.
fn answered_alike(ticket: &[u8], other: &[u8], frames: u16, plan: &[u16]) {
    same(ticket, "counts", &library::counts(ticket), &library::counts(other));
    same(ticket, "plan", &planned(ticket, frames), &planned(other, frames));
    same(ticket, "print", &printed(ticket, frames), &printed(other, frames));
    let (check, expected) = (library::check(ticket, plan), library::check(other, plan));
    same(ticket, "check", &check, &expected);
    let (run, expected) = (library::run_plan(ticket, plan), library::run_plan(other, plan));
    same(ticket, "run", &run, &expected);
}

/// The library's plan: its refusal and T, and the buffer.
fn planned(ticket: &[u8], frames: u16) -> (u8, u16, Vec<u16>) {
    let mut plan = vec![0; frames.into()];
    let answer = library::plan(ticket, &mut plan);
    (answer.refusal, answer.cycles.0, plan)
}

/// The library's printed plan: how many bytes it has, and the buffer.
fn printed(ticket: &[u8], frames: u16) -> (usize, Vec<u8>) {
    let mut text = vec![0; 5 + 11 * usize::from(frames)];
    (library::print(ticket, &mut text), text)
}

/// The same ticket with another mode, or the same bytes if they are too short to have one.
pub fn with_mode(ticket: &[u8], mode: u8) -> Vec<u8> {
    let mut other = ticket.to_vec();
    if let Some(digits) = other.get_mut(2..4) {
        digits.copy_from_slice(&[b'0', b'0' + mode]);
    }
    other
}
