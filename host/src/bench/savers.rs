//! The saver against C: what is saved, the comparison before it, and the table.

use crate::inputs::{random_list, Random, MAX_CARDS, MAX_FRAMES, POOL};
use crate::measure::{measure, Ratio};
use crate::saver_calls::{Implementation, C_BY_VALUE, C_LENT, LIBRARY};
use crate::table::better;
use dockplan::raw::{Saver, SaverAnswer, MAX_POOL};
use dockplan::reference;
use std::collections::BTreeSet;
use std::hint::black_box;
use std::mem::size_of;

/// So many full records have cards at random: a processor learns which frames are written in those that it is given again and
/// again, here also in 512.
const RECORDS: usize = 2048;

/// Those the library is compared with: by value, then with a lent record.
fn c() -> impl Iterator<Item = &'static Implementation> {
    C_BY_VALUE.iter().chain(C_LENT)
}

// ---- What is saved ----

/// What is measured, in words, how many saves it has, and the saves.
struct Row {
    given: &'static str,
    saves: usize,
    make: Box<dyn Fn(&Implementation)>,
}

fn cards_at_random(random: &mut Random, frames: usize) -> Vec<u8> {
    let list = random_list(random, MAX_CARDS, frames);
    list.into_iter().map(|card| card as u8).collect()
}

/// The library's answer after these saves, which fill a pool.
fn filled(cards: &[u8]) -> SaverAnswer {
    let new = LIBRARY.start(MAX_CARDS as u8, POOL as u16);
    cards
        .iter()
        .fold(new, |answer, &card| LIBRARY.save(&answer.saver, card))
}

/// Full records with cards at random.
fn full_records(random: &mut Random) -> Vec<Saver> {
    let full = |_| filled(&cards_at_random(random, POOL)).saver;
    (0..RECORDS).map(full).collect()
}

fn rows() -> [Row; 3] {
    let mut random = Random::new(0x8EBC_6AF0_9C88_C6E3);
    let first = cards_at_random(&mut random, POOL);
    let full = full_records(&mut random);
    let of_one_card = filled(&[0; POOL]);
    let further = vec![0; MAX_FRAMES - POOL];
    [
        Row {
            given: "a save without a cycle",
            saves: first.len(),
            make: Box::new(move |implementation| implementation.fill(black_box(&first))),
        },
        Row {
            given: "a save with a cycle, cards at random",
            saves: full.len(),
            make: Box::new(move |implementation| implementation.save_once_in_each(black_box(&full), 0)),
        },
        Row {
            given: "a save with a cycle, all frames on one card",
            saves: further.len(),
            make: Box::new(move |implementation| implementation.save_all(black_box(&of_one_card), black_box(&further))),
        },
    ]
}

// ---- The comparison ----

/// The library's record beside the reference's saver. Both have met the same calls.
struct Pair {
    record: Saver,
    reference: reference::Saver,
}

/// Compares the answer of a call with the reference's and with that of each C.
fn same(
    call: &str,
    library: SaverAnswer,
    reference: SaverAnswer,
    of_c: impl Fn(&Implementation) -> SaverAnswer,
) -> Result<SaverAnswer, String> {
    if library != reference {
        return Err(format!("{call}: {library:?} is not the reference's {reference:?}"));
    }
    match c().find(|implementation| of_c(implementation) != library) {
        Some(other) => Err(format!(
            "{call} of {} differs from the library's: {:?} and {library:?}",
            other.name,
            of_c(other)
        )),
        None => Ok(library),
    }
}

impl Pair {
    fn new(cards: u8, pool: u16) -> Result<(SaverAnswer, Pair), String> {
        let (expected, reference) = reference::Saver::new(cards, pool);
        let answer = same("new", LIBRARY.start(cards, pool), expected, |c| c.start(cards, pool))?;
        let record = answer.saver;
        Ok((answer, Pair { record, reference }))
    }

    fn save(&mut self, card: u8) -> Result<SaverAnswer, String> {
        let record = self.record;
        let expected = self.reference.save(card);
        let answer = same("save", LIBRARY.save(&record, card), expected, |c| c.save(&record, card))?;
        self.record = answer.saver;
        Ok(answer)
    }

    fn close(&mut self) -> Result<SaverAnswer, String> {
        let record = self.record;
        let expected = self.reference.close();
        let answer = same("close", LIBRARY.close(&record), expected, |c| c.close(&record))?;
        self.record = answer.saver;
        Ok(answer)
    }
}

/// Compares the answers and records of so many savers, good and bad, and of what is measured. Every refusal must be among
/// them, or the comparison would be worth little.
pub fn compare_all(mixed: usize) -> Result<(), String> {
    let mut random = Random::new(0xD6E8_FEB8_6659_FD93);
    let mut missing: BTreeSet<u8> = [0, 4, 5, 8, 13, 14, 15].into();
    for _ in 0..mixed {
        compare_mixed(&mut random, &mut missing)?;
    }
    for cards in [MAX_CARDS, 1] {
        for pool in [1, 16, POOL, MAX_POOL] {
            compare_longest(&mut random, cards, pool, &mut missing)?;
        }
    }
    if missing.is_empty() {
        Ok(())
    } else {
        Err(format!("no saver was compared that gives {missing:?}"))
    }
}

/// A saver of any numbers, mostly good ones, with any calls, and closed to its end.
fn compare_mixed(random: &mut Random, missing: &mut BTreeSet<u8>) -> Result<(), String> {
    let cards = random.below(MAX_CARDS + 3);
    let pool = match random.below(4) {
        0 => random.below(MAX_POOL + 3),
        1 => random.below(65_536),
        _ => random.below(40),
    };
    let (answer, mut pair) = Pair::new(cards as u8, pool as u16)?;
    missing.remove(&answer.refusal);
    for _ in 0..random.below(2 * POOL) {
        let answer = match random.below(100) {
            0 => pair.close()?,
            1 => pair.save(random.below(256) as u8)?,
            _ => pair.save(random.below(usize::from(pair.record.cards)) as u8)?,
        };
        missing.remove(&answer.refusal);
    }
    close_to_the_end(&mut pair, missing)
}

/// All frames that a saver takes, one more, and the closing cycles.
fn compare_longest(random: &mut Random, cards: usize, pool: usize, missing: &mut BTreeSet<u8>) -> Result<(), String> {
    let (_, mut pair) = Pair::new(MAX_CARDS as u8, pool as u16)?;
    for _ in 0..=MAX_FRAMES {
        missing.remove(&pair.save(random.below(cards) as u8)?.refusal);
    }
    close_to_the_end(&mut pair, missing)
}

fn close_to_the_end(pair: &mut Pair, missing: &mut BTreeSet<u8>) -> Result<(), String> {
    while pair.close()?.refusal == 0 {}
    missing.remove(&pair.save(0)?.refusal);
    missing.remove(&pair.close()?.refusal);
    Ok(())
}

// ---- The table ----

fn print_cells(given: &str, cells: impl Iterator<Item = String>) {
    let cells: String = cells.map(|cell| format!("{cell:>12}")).collect();
    println!("{given:<48}{cells}");
}

fn ratio(ratio: Ratio) -> String {
    let mark = if ratio.quiet { "" } else { "~" };
    format!("{mark}{:.2}", ratio.median)
}

/// Nanoseconds for a copy of a full record.
fn copy() -> f64 {
    let full = full_records(&mut Random::new(0x8EBC_6AF0_9C88_C6E3));
    let copies = measure(1, |_| {
        for record in black_box(&full) {
            let copy = *record;
            black_box(&copy);
        }
    });
    copies.least(0) / full.len() as f64
}

pub fn print_table() {
    let bytes = size_of::<Saver>();
    println!();
    println!("The saver against C (c/saver.c), nanoseconds a save, with a pool of {POOL} and 32 cards; no target:");
    println!("by value   the record of {bytes} bytes goes in and the new one comes back, as with the library");
    println!("lent       the record is changed in place; only the refusal, the cycle and the 32 entries come back");
    println!("given      without a cycle: a new saver and {POOL} saves into it, at random, divided by {POOL}");
    println!("           with a cycle: a save into a full pool, on one card the record that the save before it gave, and at random one of {RECORDS},");
    println!("           of which a lent one is copied before, as it is handed in again; the copy counts and takes {:.1} ns alone", copy());
    let others: Vec<&Implementation> = c().collect();
    let names = others.iter().map(|implementation| implementation.name.to_string());
    let head = ["lib".to_string()].into_iter().chain(names);
    print_cells("given", head.chain(["lib/value".into(), "lib/lent".into()]));
    for row in rows() {
        let implementations: Vec<&Implementation> = [&LIBRARY].into_iter().chain(others.iter().copied()).collect();
        let times = measure(implementations.len(), |number| (row.make)(implementations[number]));
        let least = (0..implementations.len()).map(|number| times.least(number) / row.saves as f64);
        let ratios: Vec<Ratio> = (1..implementations.len()).map(|other| times.ratio(0, other)).collect();
        let (by_value, lent) = ratios.split_at(C_BY_VALUE.len());
        let cells = least.map(|least| format!("{least:.1}"));
        print_cells(row.given, cells.chain([better(by_value), better(lent)].map(ratio)));
    }
}
