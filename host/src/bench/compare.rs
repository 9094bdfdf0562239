//! Compares the implementations' answers before anything is measured: whole answers, and all of each buffer.

use crate::hubs::{self, Hub};
use crate::implementations::Implementation;
use crate::inputs::{self, Random, MAX_FRAMES, MAX_PRINTED_BYTES, MAX_TICKET_BYTES};
use crate::pairs::{self, Pair};
use dockplan::raw::{CheckAnswer, HubAnswer, JoinAnswer, PlanAnswer, TicketAnswer};
use std::collections::BTreeSet;

/// What a implementation answers for one ticket, with the buffers after each call.
#[derive(PartialEq, Debug)]
struct Answers {
    parse: TicketAnswer,
    plans: Vec<(PlanAnswer, Vec<u16>)>,
    texts: Vec<(usize, Vec<u8>)>,
    checks: Vec<CheckAnswer>,
}

/// Buffers of such lengths are lent: too short, just right and too long.
fn lengths(exact: usize, longest: usize) -> [usize; 4] {
    [0, exact.saturating_sub(1), exact, longest]
}

fn answers(implementation: &Implementation, ticket: &[u8], frames: usize, plans: &[Vec<u16>]) -> Answers {
    let planned = |places| {
        let mut plan = vec![0xABCD; places];
        (implementation.plan(ticket, &mut plan), plan)
    };
    let printed = |places| {
        let mut text = vec![0xAB; places];
        (implementation.print(ticket, &mut text), text)
    };
    Answers {
        parse: implementation.parse(ticket),
        plans: lengths(frames, MAX_FRAMES).map(planned).into(),
        texts: lengths(5 + 11 * frames, MAX_PRINTED_BYTES).map(printed).into(),
        checks: plans.iter().map(|plan| implementation.check(ticket, plan)).collect(),
    }
}

impl Answers {
    /// The refusals and verdicts among the answers.
    fn kinds(&self) -> impl Iterator<Item = Kind> + '_ {
        let parse = [Kind::Refusal(self.parse.refusal)].into_iter();
        let plans = self.plans.iter().map(|(answer, _)| Kind::Refusal(answer.refusal));
        let checks = self
            .checks
            .iter()
            .flat_map(|answer| [Kind::Refusal(answer.refusal), Kind::Verdict(answer.verdict)]);
        parse.chain(plans).chain(checks)
    }
}

#[derive(PartialEq, Eq, PartialOrd, Ord, Debug)]
enum Kind {
    Refusal(u8),
    Verdict(u8),
}

/// The plan that the library makes for a ticket; it has no places for a refused one.
pub fn own_plan(library: &Implementation, ticket: &[u8]) -> Vec<u16> {
    let mut plan = vec![0; usize::from(library.parse(ticket).frames)];
    library.plan(ticket, &mut plan);
    plan
}

/// Compares the answers for one ticket, with several plans for it, and gives the library's.
fn compare(
    library: &Implementation,
    others: &[&Implementation],
    random: &mut Random,
    ticket: &[u8],
) -> Result<Answers, String> {
    let own = own_plan(library, ticket);
    let plans = inputs::plans(random, &own);
    let expected = answers(library, ticket, own.len(), &plans);
    for other in others {
        let found = answers(other, ticket, own.len(), &plans);
        if found != expected {
            let (name, text) = (other.name, ticket.escape_ascii());
            return Err(format!(
                "{name} differs from the library\nticket: {text}\nlibrary: {expected:?}\n{name}: {found:?}"
            ));
        }
    }
    Ok(expected)
}

/// Compares the verdicts on one plan.
pub fn compare_check(
    library: &Implementation,
    others: &[&Implementation],
    ticket: &[u8],
    plan: &[u16],
) -> Result<(), String> {
    let expected = library.check(ticket, plan);
    match others.iter().find(|other| other.check(ticket, plan) != expected) {
        Some(other) => Err(format!(
            "{} differs from the library, which answers {expected:?}",
            other.name
        )),
        None => Ok(()),
    }
}

/// What an implementation answers for two tickets to join, with the buffers after each call.
type Joined = Vec<(JoinAnswer, Vec<u8>)>;

fn joined(implementation: &Implementation, [first, second]: &Pair, exact: usize) -> Joined {
    let join = |places| {
        let mut out = vec![0xAB; places];
        (implementation.join(first, second, &mut out), out)
    };
    lengths(exact, MAX_TICKET_BYTES).map(join).into()
}

/// Compares the joins of two tickets, and gives the library's.
pub fn compare_join(library: &Implementation, others: &[&Implementation], pair: &Pair) -> Result<Joined, String> {
    let frames: usize = pair
        .iter()
        .map(|ticket| usize::from(library.parse(ticket).frames))
        .sum();
    let exact = 15 + 11 * frames;
    let expected = joined(library, pair, exact);
    match others.iter().find(|other| joined(other, pair, exact) != expected) {
        Some(other) => {
            let [first, second] = pair.each_ref().map(|ticket| ticket.escape_ascii());
            Err(format!(
                "{} joins otherwise than the library: {first} and {second}",
                other.name
            ))
        }
        None => Ok(expected),
    }
}

/// What an implementation answers for a hub, with the buffers after each call.
type Gathered = Vec<(HubAnswer, Vec<u8>)>;

fn gathered(implementation: &Implementation, Hub { patterns, cameras }: &Hub) -> Gathered {
    let gather = |places| {
        let mut out = vec![0xAB; places];
        (implementation.hub(patterns, cameras, &mut out), out)
    };
    lengths(cameras.len(), MAX_FRAMES).map(gather).into()
}

/// Compares the cards of a hub, and gives the library's.
pub fn compare_hub(library: &Implementation, others: &[&Implementation], hub: &Hub) -> Result<Gathered, String> {
    let expected = gathered(library, hub);
    match others.iter().find(|other| gathered(other, hub) != expected) {
        Some(other) => {
            let (name, Hub { patterns, cameras }) = (other.name, hub);
            Err(format!(
                "{name} gives other cards than the library: patterns {patterns:?}, cameras {cameras:?}"
            ))
        }
        None => Ok(expected),
    }
}

/// Compares the answers for these tickets, and for so many mixed ones, good and bad. Every refusal and every verdict must
/// be among them, or the comparison would be worth little.
pub fn compare_all(
    library: &Implementation,
    others: &[&Implementation],
    tickets: &[Vec<u8>],
    mixed: usize,
) -> Result<(), String> {
    let mut random = Random::new(0x2545_F491_4F6C_DD1D);
    let refusals = (0..=12).chain([17]).map(Kind::Refusal);
    let mut missing: BTreeSet<Kind> = refusals.chain((0..=4).map(Kind::Verdict)).collect();
    for ticket in tickets {
        compare(library, others, &mut random, ticket)?;
    }
    for _ in 0..mixed {
        let ticket = inputs::mixed_ticket(&mut random);
        for kind in compare(library, others, &mut random, &ticket)?.kinds() {
            missing.remove(&kind);
        }
    }
    none_missing(&missing)
}

/// The same for so many mixed pairs to join.
pub fn compare_joins(library: &Implementation, others: &[&Implementation], mixed: usize) -> Result<(), String> {
    let mut random = Random::new(0x9FB2_1C65_1E98_DF25);
    let refusals = (0..=10).chain(17..=19);
    let mut missing: BTreeSet<Kind> = refusals.map(Kind::Refusal).collect();
    for _ in 0..mixed {
        let pair = pairs::mixed(&mut random);
        for (answer, _) in compare_join(library, others, &pair)? {
            missing.remove(&Kind::Refusal(answer.refusal));
        }
    }
    none_missing(&missing)
}

/// The same for so many mixed patterns and lists of a hub.
pub fn compare_hubs(library: &Implementation, others: &[&Implementation], mixed: usize) -> Result<(), String> {
    let mut random = Random::new(0xE703_7ED1_A0B4_28DB);
    let mut missing: BTreeSet<Kind> = [0, 6, 10, 20, 21].map(Kind::Refusal).into();
    for _ in 0..mixed {
        let hub = hubs::mixed(&mut random);
        for (answer, _) in compare_hub(library, others, &hub)? {
            missing.remove(&Kind::Refusal(answer.refusal));
        }
    }
    none_missing(&missing)
}

fn none_missing(missing: &BTreeSet<Kind>) -> Result<(), String> {
    if missing.is_empty() {
        Ok(())
    } else {
        Err(format!("nothing was compared that gives {missing:?}"))
    }
}
