//! Every short list with every pool, and every plan for it: the checker and the run beside the reference.
//! The search also shows that no correct schedule is shorter than the library's plan, which is the same with seconds.

use dockplan::raw::{self, CheckAnswer, RunAnswer};
use dockplan::{reference, Cycle};
use std::thread;

#[test]
fn lists_on_three_cards() {
    for frames in 0..=4 {
        compare_lists(3, frames);
    }
}

#[test]
fn lists_on_two_cards() {
    compare_lists(2, 5);
}

/// All lists of that length, read in one thread and saved in another.
fn compare_lists(cards: u8, frames: u32) {
    thread::scope(|scope| {
        for mode in 0..2 {
            scope.spawn(move || {
                for list in numbers_below(cards.into(), frames) {
                    for m in 1..=frames as u16 + 1 {
                        compare_list(mode, cards, m, &list);
                    }
                }
            });
        }
    });
}

/// All plans with cycles from 0 to L. One frame a cycle is always correct, so the shortest correct plan is among them.
fn compare_list(mode: u8, cards: u8, m: u16, list: &[u16]) {
    let ticket = ticket(mode, cards, m, list);
    let input = ticket.escape_ascii();
    let frames = list.len() as u32;
    let mut shortest = u16::MAX;
    for plan in numbers_below(frames as u16 + 1, frames) {
        let checked = check(&ticket, &plan);
        assert_eq!(checked, reference::check(&ticket, &plan), "check of {plan:?}: {input}");
        let run = run(&ticket, &plan);
        assert_eq!(run, reference::run_plan(&ticket, &plan), "run of {plan:?}: {input}");
        if checked.verdict == raw::VALID {
            shortest = shortest.min(checked.cycles.0);
        }
    }
    let (mut plan, mut same_plan) = (vec![0; list.len()], vec![0; list.len()]);
    let length = dockplan::plan(&ticket, &mut plan);
    assert_eq!(length, Ok(Cycle(shortest)), "shortest plan: {input}");
    let length = dockplan::plan(&ticket_with_seconds(mode, cards, m, list), &mut same_plan);
    assert_eq!(length, Ok(Cycle(shortest)), "shortest plan, with seconds: {input}");
    assert_eq!(plan, same_plan, "with seconds: {input}");
}

fn ticket(mode: u8, cards: u8, m: u16, list: &[u16]) -> Vec<u8> {
    let mut text = format!("01{mode:02X}{cards:02X}{m:04X}{:04X}\n", list.len());
    for card in list {
        text += &format!("{card:02X}\n");
    }
    text.into_bytes()
}

/// The ticket of edition 02 with the same numbers and list, and rising capture seconds.
fn ticket_with_seconds(mode: u8, cards: u8, m: u16, list: &[u16]) -> Vec<u8> {
    let mut text = format!("02{mode:02X}{cards:02X}{m:04X}{:04X}\n", list.len());
    for (position, card) in list.iter().enumerate() {
        text += &format!("{card:02X}{position:08X}\n");
    }
    text.into_bytes()
}

/// All lists of `length` numbers below `limit`, counted through like the digits of a number.
fn numbers_below(limit: u16, length: u32) -> impl Iterator<Item = Vec<u16>> {
    let limit = u32::from(limit);
    let digit = move |code: u32, place: u32| (code / limit.pow(place) % limit) as u16;
    (0..limit.pow(length)).map(move |code| (0..length).map(|place| digit(code, place)).collect())
}

fn check(ticket: &[u8], plan: &[u16]) -> CheckAnswer {
    unsafe { raw::dockplan_check(ticket.as_ptr(), ticket.len(), plan.as_ptr(), plan.len()) }
}

fn run(ticket: &[u8], plan: &[u16]) -> RunAnswer {
    unsafe { raw::dockplan_run_plan(ticket.as_ptr(), ticket.len(), plan.as_ptr(), plan.len()) }
}
