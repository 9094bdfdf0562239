//! Tickets that differ in one frame, the library's T for each of them, and how often T moved by how much.

use crate::generate::tickets::{self, Fields};
use crate::generate::Random;
use dockplan::reference;
use std::fmt::Display;

/// The most frames that a ticket can have.
pub const MOST_FRAMES: usize = 4096;

/// The fewest cycles of a ticket, which is accepted: the library's T. T and the plan are the reference's.
pub fn cycles(ticket: &Fields) -> usize {
    let text = tickets::written(ticket);
    let input = text.escape_ascii();
    let (mut plan, mut expected) = (vec![0; ticket.frames], vec![0; ticket.frames]);
    let answer = dockplan::plan(&text, &mut plan);
    let reference = reference::plan(&text, &mut expected);
    assert_eq!(reference.refusal, 0, "{input}");
    assert_eq!(answer, Ok(reference.cycles), "{input}");
    assert_eq!(plan, expected, "{input}");
    reference.cycles.0.into()
}

/// The ticket with the frame at a position on another card, if it has a frame and another card.
pub fn on_another_card(random: &mut Random, ticket: &Fields, position: usize) -> Option<Fields> {
    let own = *ticket.list.get(position)?;
    let others: Vec<usize> = (0..ticket.cards).filter(|&card| card != own).collect();
    if others.is_empty() {
        return None;
    }
    let mut changed = ticket.clone();
    changed.list[position] = random.pick(&others);
    Some(changed)
}

/// The ticket with one frame more, on any card, which gets this position; if there is room for it. The other frames keep
/// their seconds, and its own is not lower than the one before and not higher than the one after.
pub fn with_one_more(random: &mut Random, ticket: &Fields, position: usize) -> Option<Fields> {
    if ticket.frames == MOST_FRAMES {
        return None;
    }
    let (before, after) = ticket.seconds.split_at(position);
    let least = before.last().copied().unwrap_or(0);
    let most = after.first().copied().unwrap_or(u32::MAX);
    let any = random.between(least as usize, most as usize) as u32;
    let mut longer = ticket.clone();
    longer.frames += 1;
    longer.list.insert(position, random.below(ticket.cards));
    longer.seconds.insert(position, random.pick(&[least, any, most]));
    Some(longer)
}

/// How often T moved by how much.
#[derive(Debug, Default, PartialEq)]
pub struct Moves {
    /// One frame on another card: T was one less, the same, one more.
    pub changed: [u64; 3],
    /// One frame more: T was the same, one more.
    pub added: [u64; 2],
}

impl Moves {
    /// "Changing one frame's card moves the fewest cycles by at most one."
    #[track_caller]
    pub fn change(&mut self, before: usize, after: usize, input: impl Display) {
        assert!(before.abs_diff(after) <= 1, "T was {before} and is {after}: {input}");
        self.changed[after + 1 - before] += 1;
    }

    /// "Adding one frame anywhere adds none or one."
    #[track_caller]
    pub fn addition(&mut self, before: usize, after: usize, input: impl Display) {
        let added = after.checked_sub(before).filter(|&added| added <= 1);
        let Some(added) = added else {
            panic!("T was {before} and is {after}: {input}");
        };
        self.added[added] += 1;
    }

    /// Each of the five moves that there are came up so often.
    #[track_caller]
    pub fn assert_each(&self, least: u64) {
        let mut all = self.changed.iter().chain(&self.added);
        assert!(all.all(|&times| times >= least), "a move is too rare: {self:?}");
    }
}
