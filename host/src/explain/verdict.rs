//! The checker's verdict on a plan in words.
//! The verdict is the library's; what is counted here only shows why.

use super::printed::{line_of, Frame};
use super::shown::count;
use super::{Said, READ};
use crate::{Cycle, Position, Ticket, Verdict};

/// What is said of a plan whose lines fit the ticket. `stated` is what its first line says of its cycles.
pub fn said(ticket: &[u8], read: &Ticket, stated: u16, frames: &[Frame], verdict: Verdict) -> Said {
    match verdict {
        Verdict::Valid { cycles, peak } => {
            same_cycles(stated, cycles)?;
            Ok(valid(ticket, read, cycles, peak))
        }
        Verdict::NoCycle(position) => at_fault(frames, position, |_| no_cycle()),
        Verdict::SharedCard(position) => at_fault(frames, position, |frame| shared_card(frames, frame)),
        Verdict::Overfull(position) => at_fault(frames, position, |frame| overfull(read, frames, frame)),
    }
}

/// Whether the first line says as many cycles as the checker.
fn same_cycles(stated: u16, cycles: Cycle) -> Result<(), Vec<String>> {
    if Cycle(stated) == cycles {
        return Ok(());
    }
    let has = count(cycles.0.into(), "cycle");
    Err(vec![format!("Line 1 says T = {stated}. The plan has {has}.")])
}

fn valid(ticket: &[u8], read: &Ticket, cycles: Cycle, peak: u16) -> Vec<String> {
    let has = count(cycles.0.into(), "cycle");
    let mut own = vec![0; read.frames.into()];
    let mut lines = vec![match crate::plan(ticket, &mut own) {
        Ok(fewest) if fewest == cycles => format!("It has {has}, and no plan has fewer."),
        Ok(fewest) => format!("It has {has}. The shortest plan has {}.", fewest.0),
        Err(_) => format!("It has {has}."),
    }];
    if read.mode == READ {
        let needs = count(peak.into(), "buffer");
        lines.push(format!(
            "It needs {needs}. That is its peak, the most frames held right after the reads of a cycle."
        ));
    }
    lines
}

/// The lowest position at fault, its line, and what is wrong with it.
fn at_fault(frames: &[Frame], position: Position, fault: impl Fn(&Frame) -> String) -> Said {
    let mut lines = vec![format!("The lowest position at fault is {}.", position.0)];
    if let Some(frame) = frames.get(usize::from(position.0)) {
        let line = line_of(position.0.into());
        lines.push(format!(
            "Line {line}: position {}, card {}, cycle {}.",
            position.0, frame.card, frame.cycle
        ));
        lines.push(fault(frame));
    }
    Err(lines)
}

fn no_cycle() -> String {
    "Its cycle is 0. Cycles are counted from 1.".to_string()
}

fn shared_card(frames: &[Frame], frame: &Frame) -> String {
    let same = |other: &&Frame| other.card == frame.card && other.cycle == frame.cycle;
    let earlier = frames.iter().find(same).map_or(0, |other| other.position);
    let line = line_of(earlier.into());
    format!("An earlier frame of this card has the same cycle: position {earlier}, line {line}.")
}

/// The pool rule: of a read the later frames count, of a save the earlier ones.
fn overfull(read: &Ticket, frames: &[Frame], frame: &Frame) -> String {
    let (own, position) = (frame.cycle, usize::from(frame.position));
    let counted = if read.mode == READ {
        let later = frames.iter().skip(position + 1).filter(|later| later.cycle <= own);
        format!("{} cycle {own} or earlier", have(later.count(), "later frame"))
    } else {
        let earlier = frames.iter().take(position).filter(|earlier| earlier.cycle >= own);
        format!("{} cycle {own} or later", have(earlier.count(), "earlier frame"))
    };
    let buffers = count(read.pool.into(), "buffer");
    let allow = if read.pool == 1 { "allows" } else { "allow" };
    let most = read.pool.saturating_sub(1);
    format!("Too many frames in the pool: {counted}; {buffers} {allow} at most {most}.")
}

/// "1 later frame has", "2 later frames have".
fn have(number: usize, thing: &str) -> String {
    let verb = if number == 1 { "has" } else { "have" };
    format!("{} {verb}", count(number, thing))
}
