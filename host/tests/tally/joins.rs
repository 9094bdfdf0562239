//! What pairs of tickets came to when they were joined: how often each refusal, each cause of 18, and each two grounds of
//! which one must come first.

use super::{add_each, often_enough, NUMBERS};
use dockplan::raw::{JoinAnswer, TicketAnswer};

const TICKETS: [&str; 2] = ["first tickets", "second tickets"];
/// A ticket's own refusals.
const OWN: [usize; 10] = [1, 2, 3, 4, 5, 6, 7, 8, 9, 17];

/// The causes of 18. Each counts where no other one holds.
const CAUSES: [&str; 6] = [
    "the first is not edition 02",
    "the second is not edition 02",
    "the first is not a read",
    "the second is not a read",
    "other cards",
    "another pool",
];

/// Two grounds that both hold; the one that is named first must be answered.
const ORDERS: [&str; 5] = [
    "the first ticket's own before another one of the second",
    "the second ticket's own before 18",
    "18 before 19",
    "18 before 10",
    "19 before 10",
];

/// What was joined, by how the frames lie.
const KINDS: [&str; 5] = [
    "with frames of both",
    "one after the other",
    "mixed",
    "with a second that both have",
    "typed with small letters",
];

/// Each cause, order and kind is as often as this, and 18 before 19, which takes long tickets, as this.
const LEAST: u64 = 300;
const LEAST_OF_LONG: u64 = 50;

#[derive(Default)]
pub struct Joins {
    pairs: u64,
    joined: u64,
    /// By ticket and number.
    own: [[u64; NUMBERS]; 2],
    causes: [u64; CAUSES.len()],
    too_many: u64,
    few_places: u64,
    orders: [u64; ORDERS.len()],
    kinds: [u64; KINDS.len()],
    /// Halves whose T is below that of the joined ticket, and equal to it.
    fewer_cycles: u64,
    equal_cycles: u64,
}

impl Joins {
    /// Counts a pair that was joined in a buffer with room for the result.
    pub fn count(&mut self, pair: [&[u8]; 2], headers: &[TicketAnswer; 2], answer: &JoinAnswer) {
        let [first, second] = headers;
        self.pairs += 1;
        match answer.refusal {
            0 => self.count_joined(pair, headers),
            18 => self.count_causes(headers),
            19 => self.too_many += 1,
            own => self.own[usize::from(first.refusal == 0)][usize::from(own)] += 1,
        }
        let differ = first.refusal != 0 && second.refusal != 0 && first.refusal != second.refusal;
        self.orders[0] += u64::from(differ);
        let not_joined = first.refusal == 0 && (first.edition != 2 || first.mode != 0);
        self.orders[1] += u64::from(not_joined && second.refusal != 0);
        let too_many = first.frames + second.frames > 4096;
        self.orders[2] += u64::from(answer.refusal == 18 && too_many);
    }

    /// Counts a pair for which the buffer had fewer places than the result.
    pub fn count_with_few_places(&mut self, headers: &[TicketAnswer; 2], answer: &JoinAnswer) {
        let accepted = headers.iter().all(|header| header.refusal == 0);
        self.few_places += u64::from(answer.refusal == 10);
        self.orders[3] += u64::from(accepted && answer.refusal == 18);
        self.orders[4] += u64::from(accepted && answer.refusal == 19);
    }

    /// Counts the cycles of a half beside those of the joined ticket.
    pub fn count_cycles(&mut self, of_half: u16, joined: u16) {
        self.fewer_cycles += u64::from(of_half < joined);
        self.equal_cycles += u64::from(of_half == joined && joined > 0);
    }

    /// Each cause of 18 where it is the only one.
    fn count_causes(&mut self, [first, second]: &[TicketAnswer; 2]) {
        let holds = [
            first.edition != 2,
            second.edition != 2,
            first.mode != 0,
            second.mode != 0,
            first.cards != second.cards,
            first.pool != second.pool,
        ];
        let alone = holds.iter().filter(|&&holds| holds).count() == 1;
        for (count, holds) in self.causes.iter_mut().zip(holds) {
            *count += u64::from(holds && alone);
        }
    }

    fn count_joined(&mut self, pair: [&[u8]; 2], headers: &[TicketAnswer; 2]) {
        self.joined += 1;
        let both = headers.iter().all(|header| header.frames > 0);
        let [first, second] = pair.map(seconds);
        let apart = both && (first.last() < second.first() || second.last() < first.first());
        let small = pair.concat().iter().any(u8::is_ascii_lowercase);
        let kinds = [both, apart, both && !apart, shares(&first, &second), small];
        for (count, is) in self.kinds.iter_mut().zip(kinds) {
            *count += u64::from(is);
        }
    }

    pub fn add(&mut self, other: &Joins) {
        self.pairs += other.pairs;
        self.joined += other.joined;
        self.too_many += other.too_many;
        self.few_places += other.few_places;
        self.fewer_cycles += other.fewer_cycles;
        self.equal_cycles += other.equal_cycles;
        for (sums, counts) in self.own.iter_mut().zip(&other.own) {
            add_each(sums, counts);
        }
        add_each(&mut self.causes, &other.causes);
        add_each(&mut self.orders, &other.orders);
        add_each(&mut self.kinds, &other.kinds);
    }

    pub fn print(&self) {
        println!("{} pairs of tickets, {} joined", self.pairs, self.joined);
        for (kind, count) in KINDS.iter().zip(self.kinds) {
            println!("joined {kind}: {count}");
        }
        println!(
            "halves with fewer cycles than the joined ticket: {}, with as many: {}",
            self.fewer_cycles, self.equal_cycles
        );
        for number in OWN {
            println!(
                "joins refused by {number}: first ticket {}, second {}",
                self.own[0][number], self.own[1][number]
            );
        }
        for (cause, count) in CAUSES.iter().zip(self.causes) {
            println!("joins refused by 18, {cause}: {count}");
        }
        println!("joins refused by 19: {}, by 10: {}", self.too_many, self.few_places);
        for (order, count) in ORDERS.iter().zip(self.orders) {
            println!("joins with two grounds, {order}: {count}");
        }
    }

    pub fn assert_not_rare(&self) {
        assert!(self.pairs >= 50_000 && self.joined >= 10_000, "too few pairs");
        for (ticket, counts) in TICKETS.iter().zip(&self.own) {
            often_enough(ticket, counts, &OWN);
        }
        assert!(self.too_many >= LEAST, "19 is too rare: {}", self.too_many);
        assert!(self.few_places >= 10_000, "10 is too rare: {}", self.few_places);
        assert!(self.fewer_cycles >= LEAST && self.equal_cycles >= LEAST);
        let named = CAUSES.iter().zip(self.causes).chain(KINDS.iter().zip(self.kinds));
        for (name, count) in named.chain(ORDERS.iter().zip(self.orders)) {
            let least = if *name == ORDERS[2] { LEAST_OF_LONG } else { LEAST };
            assert!(count >= least, "too rare: {name}: {count}");
        }
    }
}

/// The seconds of an accepted ticket of edition 02, as digits in upper case, which lie in the order of their numbers.
fn seconds(ticket: &[u8]) -> Vec<Vec<u8>> {
    let lines = ticket.split_inclusive(|&byte| byte == b'\n').skip(1);
    lines.map(|line| line[2..10].to_ascii_uppercase()).collect()
}

/// Whether some second is in both, which do not fall.
fn shares(first: &[Vec<u8>], second: &[Vec<u8>]) -> bool {
    first.iter().any(|own| second.binary_search(own).is_ok())
}
