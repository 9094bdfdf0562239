//! The calls a second time, written from documents 01 and 02 alone and close to their words. It is simple rather than fast.
//! Each answer is the whole struct of the C call, so that the zeros beside a refusal are compared too.
//! Editions 01 and 02 of the ticket.

mod checker;
mod dock;
mod hub;
mod join;
mod print;
mod saver;
mod schedule;
mod ticket;

pub use saver::Saver;

use crate::raw::{
    CheckAnswer, CountsAnswer, Cycle, HubAnswer, JoinAnswer, Part, PlanAnswer, Position, RunAnswer, TicketAnswer,
};
use dock::{Run, Step};
use ticket::Ticket;

/// "The largest dock in use has 192 buffers. That becomes the limit in tickets and in the saver: 192 passes and 193 gives 5."
pub const MAX_POOL: usize = 192;

/// "Tickets: 1 to 6, then line by line 7 before 8, then 9", with 17 "after 7 and 8 of the same line".
pub fn parse(ticket: &[u8]) -> TicketAnswer {
    match Ticket::read(ticket) {
        Ok(read) => TicketAnswer {
            refusal: 0,
            edition: read.edition,
            mode: read.mode,
            cards: read.cards,
            pool: read.pool,
            frames: read.list.len() as u16,
        },
        Err(refusal) => TicketAnswer {
            refusal,
            ..Default::default()
        },
    }
}

/// "Where a frame's line was wanted, the part is empty and the number is given by a call beside it."
pub fn line(ticket: &[u8], position: Position) -> Part {
    ticket::line(ticket, position).unwrap_or(Part { offset: 0, length: 0 })
}

/// The number beside `line`: the ticket's own refusals, "after that [...] 16".
pub fn line_refusal(ticket: &[u8], position: Position) -> u8 {
    ticket::line(ticket, position).err().unwrap_or(0)
}

/// "A count of frames for each of the 32 cards can be had for any accepted ticket."
pub fn counts(ticket: &[u8]) -> CountsAnswer {
    match Ticket::read(ticket) {
        Ok(read) => CountsAnswer {
            refusal: 0,
            frames: read.counts(),
        },
        Err(refusal) => CountsAnswer {
            refusal,
            ..Default::default()
        },
    }
}

/// "A plan fills the first L places, and later places keep their content."
pub fn plan(ticket: &[u8], out: &mut [u16]) -> PlanAnswer {
    match plan_or_refusal(ticket, out) {
        Ok(cycles) => PlanAnswer { refusal: 0, cycles },
        Err(refusal) => PlanAnswer {
            refusal,
            ..Default::default()
        },
    }
}

/// The ticket's own refusals, "after that 10": the plan buffer has fewer than L places.
fn plan_or_refusal(ticket: &[u8], out: &mut [u16]) -> Result<Cycle, u8> {
    let read = Ticket::read(ticket)?;
    let places = out.get_mut(..read.list.len()).ok_or(10)?;
    let schedule = schedule::of_ticket(&read);
    places.copy_from_slice(&schedule.cycles);
    Ok(Cycle(schedule.length))
}

/// The text of the printing program, or nothing where the buffer has no room for all of it (the header's rule).
pub fn print(ticket: &[u8], out: &mut [u8]) -> usize {
    let text = match Ticket::read(ticket) {
        Ok(read) => print::plan(&read.list, &schedule::of_ticket(&read)),
        Err(refusal) => print::refusal(refusal),
    };
    match out.get_mut(..text.len()) {
        Some(places) => {
            places.copy_from_slice(&text);
            text.len()
        }
        None => 0,
    }
}

/// "Later places of the buffer keep their content." The bytes of the result are answered.
pub fn join(first: &[u8], second: &[u8], out: &mut [u8]) -> JoinAnswer {
    match join_or_refusal(first, second, out) {
        Ok(bytes) => JoinAnswer { refusal: 0, bytes },
        Err(refusal) => JoinAnswer {
            refusal,
            ..Default::default()
        },
    }
}

/// "Each ticket meets its own refusals first, the first ticket before the second; 10 now also means too few places for
/// the result, and comes last."
fn join_or_refusal(first: &[u8], second: &[u8], out: &mut [u8]) -> Result<usize, u8> {
    let first = Ticket::read(first)?;
    let second = Ticket::read(second)?;
    join::allowed(&first, &second)?;
    let text = join::text(&first, &second);
    let places = out.get_mut(..text.len()).ok_or(10)?;
    places.copy_from_slice(&text);
    Ok(text.len())
}

/// "Places past the list are kept." The frames of the list are answered.
pub fn hub(patterns: &[u8], cameras: &[u8], out: &mut [u8]) -> HubAnswer {
    match hub_or_refusal(patterns, cameras, out) {
        Ok(frames) => HubAnswer { refusal: 0, frames },
        Err(refusal) => HubAnswer {
            refusal,
            ..Default::default()
        },
    }
}

/// The refusals of the patterns and the list, "a short buffer 10 and last".
fn hub_or_refusal(patterns: &[u8], cameras: &[u8], out: &mut [u8]) -> Result<u16, u8> {
    hub::allowed(patterns, cameras)?;
    let places = out.get_mut(..cameras.len()).ok_or(10)?;
    places.copy_from_slice(&hub::cards(patterns, cameras));
    Ok(cameras.len() as u16)
}

/// "Beside a refusal's number, other numbers of the answer are 0."
pub fn check(ticket: &[u8], plan: &[u16]) -> CheckAnswer {
    check_or_refusal(ticket, plan).unwrap_or_else(|refusal| CheckAnswer {
        refusal,
        ..Default::default()
    })
}

/// The ticket's own refusals, "after that [...] 12 before 11".
fn check_or_refusal(ticket: &[u8], plan: &[u16]) -> Result<CheckAnswer, u8> {
    let read = Ticket::read(ticket)?;
    if read.mode == ticket::SAVE_AND_KEEP {
        return Err(12);
    }
    if plan.len() != read.list.len() {
        return Err(11);
    }
    Ok(checker::check(&read, plan))
}

/// "Beside a refusal's number, other numbers of the answer are 0."
pub fn run_plan(ticket: &[u8], plan: &[u16]) -> RunAnswer {
    match run_or_refusal(ticket, plan) {
        Ok(run) => RunAnswer {
            refusal: 0,
            broken: run.broken_off.is_some(),
            complete: run.needed.is_some(),
            delivered: run.delivered,
            ended: Cycle(run.ended),
            needed: Cycle(run.needed.unwrap_or(0)),
            peak: run.peak,
        },
        Err(refusal) => RunAnswer {
            refusal,
            ..Default::default()
        },
    }
}

/// Whether a plan's run breaks off at an end of a cycle, which is "against the rules if more than m frames are held". No call
/// of the library answers this.
pub fn breaks_off_at_an_end(ticket: &[u8], plan: &[u16]) -> bool {
    run_or_refusal(ticket, plan).is_ok_and(|run| run.broken_off == Some(Step::EndOfCycle))
}

/// "The peak of its run, on a dock with a buffer for every frame", whatever the ticket's pool is; none where the ticket is
/// refused or the plan is for another one. No call of the library answers this of a plan at fault.
pub fn peak(ticket: &[u8], plan: &[u16]) -> Option<u16> {
    let read = Ticket::read(ticket).ok()?;
    (plan.len() == read.list.len()).then(|| dock::run_plan(&read.list, plan.len(), plan).peak)
}

/// The ticket's own refusals, then 11: a plan "has not exactly L cycles". The mode is not looked at.
fn run_or_refusal(ticket: &[u8], plan: &[u16]) -> Result<Run, u8> {
    let read = Ticket::read(ticket)?;
    if plan.len() != read.list.len() {
        return Err(11);
    }
    Ok(dock::run_plan(&read.list, read.pool.into(), plan))
}
