//! The safe wrappers beside the raw calls: the same numbers, in other types.

use crate::generate::Random;
use crate::library;
use crate::tally::Tally;
use dockplan::raw::{
    self, CheckAnswer, CountsAnswer, HubAnswer, JoinAnswer, PlanAnswer, RunAnswer, SaverAnswer, TicketAnswer,
};
use dockplan::{Cycle, Position, Refusal, Run, Saved, Saver, Verdict};

/// Compares every wrapper on one ticket and one plan.
pub fn compare(ticket: &[u8], frames: u16, plan: &[u16], tally: &mut Tally) {
    tally.wrapped += 1;
    assert_eq!(ticket_answer(dockplan::parse(ticket)), library::parse(ticket));
    assert_eq!(counts_answer(dockplan::counts(ticket)), library::counts(ticket));
    for position in [0, frames.saturating_sub(1), frames, u16::MAX] {
        compare_line(ticket, Position(position));
    }
    for places in [usize::from(frames), usize::from(frames.saturating_sub(1)), 4096] {
        compare_plan(ticket, places);
        compare_print(ticket, 5 + 11 * places);
    }
    compare_print(ticket, 0);
    assert_eq!(
        check_answer(dockplan::check(ticket, plan)),
        library::check(ticket, plan)
    );
    assert_eq!(
        run_answer(dockplan::run_plan(ticket, plan)),
        library::run_plan(ticket, plan)
    );
}

/// The wrapped line is the very part of the ticket, at the raw call's offset.
fn compare_line(ticket: &[u8], position: Position) {
    let part = library::line(ticket, position);
    let refusal = library::line_refusal(ticket, position);
    match dockplan::line(ticket, position) {
        Ok(line) => {
            assert_eq!(refusal, 0);
            assert_eq!(line.as_ptr(), ticket[part.offset..].as_ptr());
            assert_eq!(line.len(), part.length);
        }
        Err(Refusal(number)) => assert_eq!(number, refusal),
    }
}

fn compare_plan(ticket: &[u8], places: usize) {
    let (mut one, mut other) = (vec![0xA5A5; places], vec![0xA5A5; places]);
    assert_eq!(
        plan_answer(dockplan::plan(ticket, &mut one)),
        library::plan(ticket, &mut other)
    );
    assert_eq!(one, other);
}

fn compare_print(ticket: &[u8], places: usize) {
    let (mut one, mut other) = (vec![0xA5; places], vec![0xA5; places]);
    assert_eq!(dockplan::print(ticket, &mut one), library::print(ticket, &mut other));
    assert_eq!(one, other);
}

/// Compares the wrapped join of two tickets into that many places.
pub fn compare_join(first: &[u8], second: &[u8], places: usize) {
    let (mut one, mut other) = (vec![0xA5; places], vec![0xA5; places]);
    assert_eq!(
        join_answer(dockplan::join(first, second, &mut one)),
        library::join(first, second, &mut other)
    );
    assert_eq!(one, other);
}

/// Compares the wrapped hub with a buffer of that many places.
pub fn compare_hub(patterns: &[u8], cameras: &[u8], places: usize) {
    let (mut one, mut other) = (vec![0xA5; places], vec![0xA5; places]);
    assert_eq!(
        hub_answer(dockplan::hub(patterns, cameras, &mut one)),
        library::hub(patterns, cameras, &mut other)
    );
    assert_eq!(one, other);
}

/// Compares the wrapped saver, new for the ticket's numbers, which are 0 for a refused one. Some cards are bad.
pub fn compare_saver(random: &mut Random, header: &TicketAnswer, tally: &mut Tally) {
    let cards = header.cards.max(random.below(2) as u8);
    let mut raw = library::saver_new(cards, header.pool);
    tally.saver_calls += 1;
    let mut saver = match Saver::new(cards, header.pool) {
        Ok(saver) => saver,
        Err(Refusal(number)) => return assert_eq!(number, raw.refusal),
    };
    assert_eq!(raw.refusal, 0);
    for _ in 0..random.below(60) {
        let card = random.between(0, cards.into()) as u8;
        raw = library::saver_save(raw.saver, card);
        compare_saved(saver.save(card), &saver, &raw, tally);
    }
    while raw.refusal != 14 {
        raw = library::saver_close(raw.saver);
        compare_saved(saver.close(), &saver, &raw, tally);
    }
}

fn compare_saved(wrapped: Result<Saved, Refusal>, saver: &Saver, raw: &SaverAnswer, tally: &mut Tally) {
    assert_eq!(saver_answer(wrapped, raw), *raw);
    assert_eq!((saver.waiting(), saver.taken()), (raw.saver.waiting, raw.saver.taken));
    tally.saver_calls += 1;
}

fn ticket_answer(wrapped: Result<dockplan::Ticket, Refusal>) -> TicketAnswer {
    match wrapped {
        Ok(dockplan::Ticket {
            edition,
            mode,
            cards,
            pool,
            frames,
        }) => TicketAnswer {
            refusal: 0,
            edition,
            mode,
            cards,
            pool,
            frames,
        },
        Err(Refusal(refusal)) => TicketAnswer {
            refusal,
            ..Default::default()
        },
    }
}

fn counts_answer(wrapped: Result<[u16; 32], Refusal>) -> CountsAnswer {
    match wrapped {
        Ok(frames) => CountsAnswer { refusal: 0, frames },
        Err(Refusal(refusal)) => CountsAnswer {
            refusal,
            ..Default::default()
        },
    }
}

fn plan_answer(wrapped: Result<Cycle, Refusal>) -> PlanAnswer {
    match wrapped {
        Ok(cycles) => PlanAnswer { refusal: 0, cycles },
        Err(Refusal(refusal)) => PlanAnswer {
            refusal,
            ..Default::default()
        },
    }
}

fn join_answer(wrapped: Result<usize, Refusal>) -> JoinAnswer {
    match wrapped {
        Ok(bytes) => JoinAnswer { refusal: 0, bytes },
        Err(Refusal(refusal)) => JoinAnswer {
            refusal,
            ..Default::default()
        },
    }
}

fn hub_answer(wrapped: Result<u16, Refusal>) -> HubAnswer {
    match wrapped {
        Ok(frames) => HubAnswer { refusal: 0, frames },
        Err(Refusal(refusal)) => HubAnswer {
            refusal,
            ..Default::default()
        },
    }
}

fn check_answer(wrapped: Result<Verdict, Refusal>) -> CheckAnswer {
    let answer = |refusal, verdict, position, cycles, peak| CheckAnswer {
        refusal,
        verdict,
        position,
        cycles,
        peak,
    };
    let (no_position, no_cycles) = (Position(0), Cycle(0));
    match wrapped {
        Ok(Verdict::Valid { cycles, peak }) => answer(0, raw::VALID, no_position, cycles, peak),
        Ok(Verdict::NoCycle(position)) => answer(0, raw::NO_CYCLE, position, no_cycles, 0),
        Ok(Verdict::SharedCard(position)) => answer(0, raw::SHARED_CARD, position, no_cycles, 0),
        Ok(Verdict::Overfull(position)) => answer(0, raw::OVERFULL, position, no_cycles, 0),
        Err(Refusal(refusal)) => answer(refusal, raw::NO_VERDICT, no_position, no_cycles, 0),
    }
}

fn run_answer(wrapped: Result<Run, Refusal>) -> RunAnswer {
    let (refusal, run) = match wrapped {
        Ok(run) => (0, run),
        Err(Refusal(refusal)) => (
            refusal,
            Run {
                broken: false,
                delivered: 0,
                ended: Cycle(0),
                needed: None,
                peak: 0,
            },
        ),
    };
    RunAnswer {
        refusal,
        broken: run.broken,
        complete: run.needed.is_some(),
        delivered: run.delivered,
        ended: run.ended,
        needed: run.needed.unwrap_or(Cycle(0)),
        peak: run.peak,
    }
}

/// The wrapped answer with the raw record, which the wrapper keeps to itself.
fn saver_answer(wrapped: Result<Saved, Refusal>, raw: &SaverAnswer) -> SaverAnswer {
    let (refusal, saved) = match wrapped {
        Ok(saved) => (0, saved),
        Err(Refusal(refusal)) => (
            refusal,
            Saved {
                cycle: None,
                written: [None; 32],
            },
        ),
    };
    SaverAnswer {
        refusal,
        cycle: saved.cycle.unwrap_or(Cycle(0)),
        written: saved.written.map(|position| position.unwrap_or(Position(raw::NONE))),
        saver: raw.saver,
    }
}
