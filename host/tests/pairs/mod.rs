//! Pairs of tickets to join: mostly the two halves of a survey, of every size and dealt in every way, in either case; halves
//! with one thing different; and pairs with a ticket that is refused.

use crate::generate::tickets::{self, Fields};
use crate::generate::Random;
use dockplan::reference::{self, MAX_POOL};

/// Any two tickets, and most often two that can be joined.
pub fn any(random: &mut Random) -> [Vec<u8>; 2] {
    let pair = match random.below(24) {
        0..=9 => halves(random).map(|half| tickets::written(&half)),
        10..=13 => with_a_difference(random).map(|half| tickets::written(&half)),
        14..=16 => [refused(random), any_half(random)],
        17..=19 => [any_half(random), refused(random)],
        20 => [refused(random), refused(random)],
        _ => [tickets::any(random), refused(random)],
    };
    pair.map(|ticket| tickets::typed(random, ticket))
}

/// A ticket with a refusal of its own.
fn refused(random: &mut Random) -> Vec<u8> {
    loop {
        let ticket = tickets::any(random);
        if reference::parse(&ticket).refusal != 0 {
            return ticket;
        }
    }
}

/// One of two halves.
fn any_half(random: &mut Random) -> Vec<u8> {
    let [half, _] = halves(random);
    tickets::written(&half)
}

/// Two read tickets of edition 02 with the same cards and pool: each frame of one survey, whose seconds do not fall, is
/// dealt to one of them.
fn halves(random: &mut Random) -> [Fields; 2] {
    let frames = frames_together(random);
    let survey = tickets::fields(random, frames);
    let mut halves = [(); 2].map(|()| Fields {
        edition: 2,
        mode: 0,
        cards: survey.cards,
        pool: survey.pool,
        frames: 0,
        list: Vec::new(),
        seconds: Vec::new(),
        edition_of_lines: 2,
    });
    let dealt = dealt(random, frames);
    for ((half, card), second) in dealt.into_iter().zip(survey.list).zip(survey.seconds) {
        halves[half].frames += 1;
        halves[half].list.push(card);
        halves[half].seconds.push(second);
    }
    halves
}

/// Mostly short, and seldom around the most that can be joined or far over it.
fn frames_together(random: &mut Random) -> usize {
    match random.below(200) {
        0 => random.pick(&[4094, 4095, 4096, 4096]),
        1 => random.pick(&[4097, 4097, 4098, 4100]),
        2 => random.between(4098, 8192),
        3..=6 => random.between(200, 900),
        _ => tickets::length(random),
    }
}

/// The half that each frame goes to: any, by turns, in runs, or all frames up to some second in one and the later ones in
/// the other. By turns, and cut in the middle, 4,097 frames are 2,048 and 2,049.
fn dealt(random: &mut Random, frames: usize) -> Vec<usize> {
    let shape = random.below(5);
    let first = random.below(2);
    let run = random.between(1, 9);
    let any_cut = random.between(0, frames);
    let cut = random.pick(&[frames / 2, frames / 2, any_cut, 0, frames]);
    (0..frames)
        .map(|position| match shape {
            0 | 1 => random.below(2),
            2 => (position + first) % 2,
            3 => (position / run + first) % 2,
            _ => (usize::from(position < cut) + first) % 2,
        })
        .collect()
}

/// Halves of which one is not edition 02 or not a read, or whose cards or pools differ. Seldom both are of the other
/// edition or mode, or two things are different.
fn with_a_difference(random: &mut Random) -> [Fields; 2] {
    let mut halves = halves(random);
    for _ in 0..random.pick(&[1, 1, 1, 1, 2]) {
        let half = random.below(2);
        differ(random, &mut halves[half]);
    }
    if random.once_in(8) {
        let [first, second] = &mut halves;
        (second.edition, second.edition_of_lines, second.mode) = (first.edition, first.edition_of_lines, first.mode);
    }
    halves
}

/// Another edition, mode, number of cards or pool. Each is one that a ticket can have.
fn differ(random: &mut Random, half: &mut Fields) {
    match random.below(4) {
        0 => (half.edition, half.edition_of_lines) = (1, 1),
        1 => half.mode = random.between(1, 2),
        2 => half.cards = other_cards(random, half),
        _ => half.pool = other_pool(random, half.pool),
    }
}

/// One more or less, or any number that the frames allow.
fn other_cards(random: &mut Random, half: &Fields) -> usize {
    let least = half.list.iter().max().map_or(1, |card| card + 1);
    let any = random.between(least, 32);
    random.pick(&[half.cards + 1, half.cards - 1, any]).clamp(least, 32)
}

/// One more or less, another high or low digit alone, or any.
fn other_pool(random: &mut Random, pool: usize) -> usize {
    let any = random.between(1, MAX_POOL);
    let wanted = random.pick(&[pool + 1, pool - 1, pool ^ 0x80, pool ^ 0x20, pool ^ 0x02, any]);
    wanted.clamp(1, MAX_POOL)
}
