//! A hub's frames put on its cards, into buffers that are exact, longer, one place short and empty. The whole buffer is
//! compared; of the cards that come out, what is promised of them is asked for.

use super::{lent, marked, planned, wrappers, MARGIN};
use crate::generate::tickets::{self, Fields};
use crate::generate::Random;
use crate::hubs::Hub;
use crate::judged::with_pool;
use crate::library;
use crate::tally::Tally;
use dockplan::raw::HubAnswer;
use dockplan::reference::{self, MAX_POOL};
use std::collections::BTreeSet;
use std::fmt::{Debug, Display};

/// Fails where the library's answer is not what it must be, and shows the input.
#[track_caller]
fn same<T: PartialEq + Debug>(given: &Hub, call: impl Display, library: &T, expected: &T) {
    let Hub { patterns, cameras } = given;
    assert!(
        library == expected,
        "{call} for patterns {patterns:?} and cameras {cameras:?}\n  library: {library:?}\n expected: {expected:?}"
    );
}

/// Compares the call with several buffers, and asks of the cards what is promised.
pub fn compare(random: &mut Random, given: &Hub, tally: &mut Tally) {
    tally.hubs.inputs += 1;
    let frames = given.cameras.len();
    let more = frames + random.between(1, 20);
    let fewer = random.below(frames.max(1));
    for places in [frames.saturating_sub(1), 0, fewer, more] {
        compare_call(given, places, tally);
    }
    let (answer, cards) = compare_call(given, frames, tally);
    if random.once_in(16) {
        for places in [frames, fewer, more] {
            wrappers::compare_hub(&given.patterns, &given.cameras, places);
        }
    }
    if answer.refusal == 0 {
        go_round_the_cards(given, &cards);
        takes_the_fullest_load(random, given, &cards, tally);
    }
}

/// Compares the answer and the buffer, and answers what was lent.
fn compare_call(given: &Hub, places: usize, tally: &mut Tally) -> (HubAnswer, Vec<u8>) {
    let mut buffer = marked(places, |place| 0x80 | place as u8);
    let mut expected = buffer.clone();
    let answer = library::hub(&given.patterns, &given.cameras, lent(&mut buffer));
    let reference = reference::hub(&given.patterns, &given.cameras, lent(&mut expected));
    same(given, format_args!("hub in {places} places"), &answer, &reference);
    same(given, format_args!("buffer of {places} places"), &buffer, &expected);
    tally.hubs.count(given, places, &answer);
    (answer, buffer[MARGIN..MARGIN + places].to_vec())
}

/// Whatever the patterns are: up to eight frames of a camera that follow each other are on different cards, and the ninth is
/// on the card of the first.
fn go_round_the_cards(given: &Hub, cards: &[u8]) {
    for camera in 0..given.patterns.len() {
        let frames = given.cameras.iter().zip(cards);
        let own: Vec<u8> = frames
            .filter(|(&of, _)| usize::from(of) == camera)
            .map(|(_, &card)| card)
            .collect();
        for round in own.windows(own.len().clamp(1, 8)) {
            let different: BTreeSet<&u8> = round.iter().collect();
            same(given, "different cards", &different.len(), &round.len());
        }
        for nine in own.windows(9) {
            same(given, "card of the ninth frame", &nine[8], &nine[0]);
        }
    }
}

/// "With S cameras, L frames and a pool above 7 × S, both read and full save take exactly the load of the fullest card, and
/// 8 × T is at most L + 7 × S."
fn takes_the_fullest_load(random: &mut Random, given: &Hub, cards: &[u8], tally: &mut Tally) {
    let (s, l) = (given.patterns.len(), cards.len());
    let load = |card: u8| cards.iter().filter(|&&own| own == card).count();
    let loads: Vec<usize> = (0..8).map(load).collect();
    let fullest = loads.iter().copied().max().unwrap_or(0);
    let least = 7 * s + 1;
    let larger = random.between(least, MAX_POOL);
    for mode in 0..2 {
        for edition in 1..=2 {
            let ticket = ticket(edition, mode, least, cards);
            let counts = library::counts(&ticket).frames.map(usize::from);
            same(given, "counts", &counts[..8].to_vec(), &loads);
            for (pool, ticket) in [(least, &ticket), (larger, &with_pool(&ticket, larger))] {
                let call = format_args!("cycles in edition {edition}, mode {mode}, with a pool of {pool}");
                same(given, call, &cycles(ticket, l), &fullest);
            }
            let just_less = cycles(&with_pool(&ticket, least - 1), l);
            tally.hubs.count_pool(mode, s, just_less > fullest);
        }
    }
    same(given, "8 T at most L + 7 S", &(8 * fullest <= l + 7 * s), &true);
    tally.hubs.count_cycles(s, l, fullest);
}

/// T of a ticket that is accepted.
fn cycles(ticket: &[u8], frames: usize) -> usize {
    let (refusal, cycles, _) = planned(ticket, frames as u16);
    assert_eq!(refusal, 0, "{}", ticket.escape_ascii());
    cycles.into()
}

/// A ticket for eight cards. Its seconds do not fall.
fn ticket(edition: usize, mode: usize, pool: usize, cards: &[u8]) -> Vec<u8> {
    let frames = cards.len();
    tickets::written(&Fields {
        edition,
        mode,
        cards: 8,
        pool,
        frames,
        list: cards.iter().copied().map(usize::from).collect(),
        seconds: (0..frames as u32).map(|position| position / 3).collect(),
        edition_of_lines: edition,
    })
}
