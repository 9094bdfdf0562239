//! The saver: on a ticket's list, and on sequences of calls good and bad.
//! Each answer is compared with its whole record.

use super::{same, with_mode};
use crate::generate::tickets::CARD_DIGITS;
use crate::generate::Random;
use crate::library;
use crate::pools;
use crate::tally::Tally;
use dockplan::raw::{self, SaverAnswer};
use dockplan::reference::{self, MAX_POOL};

/// The library's record beside the reference's saver. Both have met the same calls.
#[derive(Clone)]
struct Pair {
    record: raw::Saver,
    saver: reference::Saver,
}

impl Pair {
    fn new(cards: u8, pool: u16, tally: &mut Tally) -> Pair {
        let answer = library::saver_new(cards, pool);
        let (expected, saver) = reference::Saver::new(cards, pool);
        assert_eq!(answer, expected, "new saver of {cards} cards and a pool of {pool}");
        count(&answer, tally);
        Pair {
            record: answer.saver,
            saver,
        }
    }

    fn save(&mut self, card: u8, tally: &mut Tally) -> SaverAnswer {
        let answer = library::saver_save(self.record, card);
        let expected = self.saver.save(card);
        assert_eq!(answer, expected, "save to card {card} with {:?}", self.record);
        count(&answer, tally);
        self.record = answer.saver;
        answer
    }

    fn close(&mut self, tally: &mut Tally) -> SaverAnswer {
        let answer = library::saver_close(self.record);
        let expected = self.saver.close();
        assert_eq!(answer, expected, "closing cycle with {:?}", self.record);
        count(&answer, tally);
        self.record = answer.saver;
        answer
    }
}

fn count(answer: &SaverAnswer, tally: &mut Tally) {
    tally.saver_calls += 1;
    tally.saver_refusal(answer.refusal);
}

/// Saves an accepted ticket's list and closes: "saving a list and closing until the pool is empty writes exactly what
/// its save plan says". What is written before closing is the plan of save and keep.
pub fn compare_list(ticket: &[u8], tally: &mut Tally) {
    let header = reference::parse(ticket);
    let mut pair = Pair::new(header.cards, header.pool, tally);
    let mut written = vec![0; usize::from(header.frames)];
    for card in cards_of(ticket) {
        note(&pair.save(card, tally), &mut written);
    }
    same(ticket, "saves", &written, &plan_of_mode(ticket, 2, header.frames));
    loop {
        let answer = pair.close(tally);
        if answer.refusal == 14 {
            break;
        }
        note(&answer, &mut written);
    }
    same(ticket, "closing", &written, &plan_of_mode(ticket, 1, header.frames));
}

/// The cards of an accepted ticket's list: the first digits of its lines after the header.
fn cards_of(ticket: &[u8]) -> Vec<u8> {
    let text = std::str::from_utf8(ticket).unwrap();
    let cards = text.lines().skip(1).map(|line| &line[..CARD_DIGITS]);
    cards.map(|card| u8::from_str_radix(card, 16).unwrap()).collect()
}

/// Notes the cycle of each frame that a call wrote.
fn note(answer: &SaverAnswer, written: &mut [u16]) {
    for position in answer.written.iter().filter(|position| position.0 != raw::NONE) {
        written[usize::from(position.0)] = answer.cycle.0;
    }
}

fn plan_of_mode(ticket: &[u8], mode: u8, frames: u16) -> Vec<u16> {
    let mut plan = vec![0; usize::from(frames)];
    reference::plan(&with_mode(ticket, mode), &mut plan);
    plan
}

/// Calls in any order: saves to good and bad cards, closing too early and too late, and saves after closing.
pub fn compare_any_calls(random: &mut Random, tally: &mut Tally) {
    let mut pair = any_new(random, tally);
    let mut earlier = pair.clone();
    for _ in 0..random.below(120) {
        match random.below(60) {
            0 => _ = pair.close(tally),
            1 => _ = pair.save(bad_card(random, pair.record.cards), tally),
            2 => earlier = pair.clone(),
            3 => pair = earlier.clone(),
            _ => _ = pair.save(random.below(pair.record.cards.into()) as u8, tally),
        }
    }
    close_to_the_end(random, &mut pair, tally);
}

/// More than 4,096 saves, with bad cards between them and behind them, and then closing.
pub fn compare_full_saver(random: &mut Random, tally: &mut Tally) {
    let cards = random.between(1, 32);
    let pool = random.pick(&[1, 2, 7, 32, 100, MAX_POOL - 1, MAX_POOL]);
    let mut pair = Pair::new(cards as u8, pool as u16, tally);
    while pair.record.taken < 4096 {
        pair.save(random.below(cards) as u8, tally);
        if random.once_in(50) {
            pair.save(random.byte(), tally);
        }
    }
    for _ in 0..20 {
        pair.save(random.below(cards) as u8, tally);
        pair.save(bad_card(random, cards as u8), tally);
    }
    close_to_the_end(random, &mut pair, tally);
}

/// A new saver within the limits, at them, or one past them.
fn any_new(random: &mut Random, tally: &mut Tally) -> Pair {
    let mut cards = random.between(1, 32);
    let mut pool = random.between(1, 40);
    if random.once_in(3) {
        cards = random.pick(&[0, 1, 32, 33, 255]);
    }
    if random.once_in(3) {
        let limits = random.pick(&[&pools::PASS[..], &pools::GIVE_5]);
        pool = random.pick(limits);
    }
    Pair::new(cards as u8, pool as u16, tally)
}

fn bad_card(random: &mut Random, cards: u8) -> u8 {
    random.pick(&[cards, cards + 1, 32, 33, 255])
}

/// Closes until the pool is empty, with saves that are now refused between, and asks once more.
fn close_to_the_end(random: &mut Random, pair: &mut Pair, tally: &mut Tally) {
    while pair.close(tally).refusal == 0 {
        if random.once_in(4) {
            pair.save(random.byte() % 34, tally);
        }
    }
    pair.close(tally);
    pair.save(0, tally);
}
