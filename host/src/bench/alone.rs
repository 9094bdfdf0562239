//! Calls that plain C does not have beside them: their own times.

use crate::compare::own_plan;
use crate::implementations::LIBRARY;
use crate::inputs::{self, List, POOL};
use crate::measure::measure;
use crate::rows::READ;
use dockplan::raw::{self, SaverAnswer};
use std::hint::black_box;

/// A call, what it is given in words, the frames among which its time is divided, and the call itself.
struct Alone {
    call: &'static str,
    given: String,
    frames: usize,
    make: Box<dyn FnMut()>,
}

// SAFETY of these calls: pointer and count are those of one slice, and a saver's record is one that a call gave.
fn counts(ticket: &[u8]) {
    black_box(unsafe { raw::dockplan_counts(black_box(ticket.as_ptr()), ticket.len()) });
}

fn run_plan(ticket: &[u8], plan: &[u16]) {
    black_box(unsafe { raw::dockplan_run_plan(black_box(ticket.as_ptr()), ticket.len(), plan.as_ptr(), plan.len()) });
}

/// Saves the frames of a list and closes until the pool is empty.
fn save(cards: &[usize]) {
    let mut answer: SaverAnswer = unsafe { raw::dockplan_saver_new(inputs::MAX_CARDS as u8, POOL as u16) };
    for &card in cards {
        answer = unsafe { raw::dockplan_saver_save(answer.saver, card as u8) };
    }
    while answer.refusal == 0 {
        answer = unsafe { raw::dockplan_saver_close(answer.saver) };
    }
    black_box(answer);
}

fn rows(list: &List) -> Vec<Alone> {
    let ticket = list.ticket(READ);
    let own = own_plan(&LIBRARY, &ticket);
    let [_, _, spread] = inputs::plans_in_blocks();
    let frames = list.cards.len();
    let [of_ticket, of_spread] = [ticket.clone(), ticket.clone()];
    let row = |call, given: &str, frames, make: Box<dyn FnMut()>| Alone {
        call,
        given: given.into(),
        frames,
        make,
    };
    let (name, cards) = (list.name(), list.cards.clone());
    vec![
        row(
            "counts",
            &format!("read, {name}"),
            frames,
            Box::new(move || counts(&of_ticket)),
        ),
        row(
            "run_plan",
            &format!("read, {name}, own plan"),
            frames,
            Box::new(move || run_plan(&ticket, &own)),
        ),
        row(
            "run_plan",
            &format!("read, {name}, {}", spread.name),
            frames,
            Box::new(move || run_plan(&of_spread, &spread.cycles)),
        ),
        row(
            "saver",
            "4,096 saves and the closing cycles, pool 192",
            frames,
            Box::new(move || save(&cards)),
        ),
    ]
}

pub fn print_table(list: &List) {
    println!();
    println!("The library alone, nanoseconds a frame as above; no target:");
    for mut row in rows(list) {
        let least = measure(1, |_| (row.make)()).least(0);
        println!("{:<9}{:<51}{:>9.2}", row.call, row.given, least / row.frames as f64);
    }
}
