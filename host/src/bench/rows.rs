//! What is measured: the calls, what each is given, and what it should reach.

use crate::compare::own_plan;
use crate::hubs::{self, Hub};
use crate::implementations::{Implementation, LIBRARY};
use crate::inputs::{self, List, MAX_FRAMES, MAX_PRINTED_BYTES, MAX_TICKET_BYTES};
use crate::pairs::{self, Pair};
use std::hint::black_box;

pub const READ: usize = 0;
const SAVE: usize = 1;
const SAVE_AND_KEEP: usize = 2;
pub const MODES: [usize; 3] = [READ, SAVE, SAVE_AND_KEEP];

/// The pools that the planner's pass is measured with, beside that of the lists.
const SMALLER_POOLS: [usize; 2] = [1, 16];

/// The library's part of the faster C's time, and of the fewer instructions, that a row may reach.
const READER_AND_PLANNER: f64 = 1.05;
const EDITION_2: f64 = 1.10;
const OTHERS: f64 = 1.10;

/// A call, what it is given in words, and its target.
pub struct Row {
    pub call: &'static str,
    pub given: String,
    pub target: f64,
    pub make: fn(&Implementation, &mut Work),
    pub work: Work,
}

/// What a measured call is given: a ticket and a plan to check, or two tickets to join, or the patterns and list of a hub,
/// another pair or another list in each call if there are more; and buffers that are not cleared between calls.
pub struct Work {
    pub ticket: Vec<u8>,
    pub checked: Vec<u16>,
    pub pairs: Vec<Pair>,
    pub hubs: Vec<Hub>,
    pub frames: usize,
    calls: usize,
    plan: Vec<u16>,
    text: Vec<u8>,
    joined: Vec<u8>,
    cards: Vec<u8>,
}

impl Work {
    fn new(ticket: Vec<u8>, checked: Vec<u16>) -> Work {
        Work {
            frames: checked.len(),
            ticket,
            checked,
            pairs: Vec::new(),
            hubs: Vec::new(),
            calls: 0,
            plan: vec![0; MAX_FRAMES],
            text: vec![0; MAX_PRINTED_BYTES],
            joined: vec![0; MAX_TICKET_BYTES],
            cards: vec![0; MAX_FRAMES],
        }
    }

    /// Pairs of tickets, each of which joins to one of so many frames.
    fn to_join(pairs: Vec<Pair>, frames: usize) -> Work {
        Work {
            pairs,
            frames,
            ..Work::new(Vec::new(), Vec::new())
        }
    }

    /// Patterns and lists of 4,096 frames for a hub.
    fn to_gather(hubs: Vec<Hub>) -> Work {
        Work {
            hubs,
            frames: MAX_FRAMES,
            ..Work::new(Vec::new(), Vec::new())
        }
    }
}

fn parse(implementation: &Implementation, work: &mut Work) {
    black_box(implementation.parse(black_box(&work.ticket)));
}

fn plan(implementation: &Implementation, work: &mut Work) {
    black_box(implementation.plan(black_box(&work.ticket), black_box(&mut work.plan)));
}

fn check(implementation: &Implementation, work: &mut Work) {
    black_box(implementation.check(black_box(&work.ticket), black_box(&work.checked)));
}

fn print(implementation: &Implementation, work: &mut Work) {
    black_box(implementation.print(black_box(&work.ticket), black_box(&mut work.text)));
}

fn join(implementation: &Implementation, work: &mut Work) {
    work.calls += 1;
    let [first, second] = &work.pairs[work.calls % work.pairs.len()];
    black_box(implementation.join(black_box(first), black_box(second), black_box(&mut work.joined)));
}

fn hub(implementation: &Implementation, work: &mut Work) {
    work.calls += 1;
    let Hub { patterns, cameras } = &work.hubs[work.calls % work.hubs.len()];
    black_box(implementation.hub(black_box(patterns), black_box(cameras), black_box(&mut work.cards)));
}

fn mode_name(mode: usize) -> &'static str {
    ["read", "save", "save and keep"][mode]
}

/// The rows of one list: every call on its tickets, and the checker on the plans that the planner makes of them.
fn own_rows(list: &List) -> Vec<Row> {
    let row = |call, mode, target, make| {
        let ticket = list.ticket(mode);
        let checked = own_plan(&LIBRARY, &ticket);
        let plan = if call == "checker" { ", own plan" } else { "" };
        Row {
            call,
            given: format!("{}, {}{plan}", mode_name(mode), list.name()),
            target,
            make,
            work: Work::new(ticket, checked),
        }
    };
    vec![
        row(
            "reader",
            READ,
            READER_AND_PLANNER,
            parse as fn(&Implementation, &mut Work),
        ),
        row("planner", READ, READER_AND_PLANNER, plan),
        row("planner", SAVE, READER_AND_PLANNER, plan),
        row("planner", SAVE_AND_KEEP, READER_AND_PLANNER, plan),
        row("checker", READ, OTHERS, check),
        row("checker", SAVE, OTHERS, check),
        row("printing", READ, OTHERS, print),
    ]
}

/// The planner on a list with smaller pools: a cycle for every frame, or for a few.
fn pool_rows(list: &List) -> Vec<Row> {
    let row = |pool, mode| {
        let list = list.with_pool(pool);
        let ticket = list.ticket(mode);
        let checked = own_plan(&LIBRARY, &ticket);
        Row {
            call: "planner",
            given: format!("{}, {}", mode_name(mode), list.name()),
            target: READER_AND_PLANNER,
            make: plan,
            work: Work::new(ticket, checked),
        }
    };
    let of_pool = |pool| MODES.map(|mode| row(pool, mode));
    SMALLER_POOLS.into_iter().flat_map(of_pool).collect()
}

/// The printed plan of a ticket that is typed in lower case: read, planned and printed.
fn typed_row(list: &List) -> Row {
    let mut ticket = list.ticket(READ);
    ticket.make_ascii_lowercase();
    let checked = own_plan(&LIBRARY, &ticket);
    Row {
        call: "printing",
        given: format!("read, typed in lower case, {}", list.name()),
        target: OTHERS,
        make: print,
        work: Work::new(ticket, checked),
    }
}

/// The reader, the planner and the printed plan on the tickets of edition 02 with the same numbers and cards.
fn seconds_rows(list: &List) -> Vec<Row> {
    let row = |call, make| {
        let ticket = list.ticket_with_seconds(READ);
        let checked = own_plan(&LIBRARY, &ticket);
        Row {
            call,
            given: format!("read, edition 02, {}", list.name()),
            target: EDITION_2,
            make,
            work: Work::new(ticket, checked),
        }
    };
    vec![
        row("reader", parse as fn(&Implementation, &mut Work)),
        row("planner", plan),
        row("printing", print),
    ]
}

/// The two halves of a list joined; the time is divided among the frames of both.
fn join_rows(list: &List) -> Vec<Row> {
    let row = |halves: pairs::Halves| Row {
        call: "joining",
        given: format!("two halves of 2,048 frames, {}", halves.name),
        target: EDITION_2,
        make: join,
        work: Work::to_join(halves.pairs, list.cards.len()),
    };
    pairs::halves(list).into_iter().map(row).collect()
}

/// The cards of a hub's lists.
fn hub_rows() -> Vec<Row> {
    let row = |lists: hubs::Lists| Row {
        call: "hub",
        given: lists.name.into(),
        target: OTHERS,
        make: hub,
        work: Work::to_gather(lists.hubs),
    };
    hubs::lists().into_iter().map(row).collect()
}

/// The checker on plans that are not ours: in blocks, hopeless ones, and ones close to ours.
fn foreign_rows(list: &List) -> Vec<Row> {
    let of_mode = |mode| {
        let own = own_plan(&LIBRARY, &list.ticket(mode));
        let row = |plan: inputs::Foreign| Row {
            call: "checker",
            given: format!("{}, {}, {}", mode_name(mode), list.name(), plan.name),
            target: OTHERS,
            make: check,
            work: Work::new(list.ticket(mode), plan.cycles),
        };
        let plans = inputs::plans_in_blocks().into_iter();
        let plans = plans.chain(inputs::hopeless_plans());
        let plans = plans.chain(inputs::plans_like_own(list, mode == READ, &own));
        plans.map(row).collect::<Vec<Row>>()
    };
    [READ, SAVE].into_iter().flat_map(of_mode).collect()
}

pub fn rows(lists: &[List]) -> Vec<Row> {
    let own = lists.iter().flat_map(own_rows);
    own.chain(pool_rows(&lists[0]))
        .chain([typed_row(&lists[0])])
        .chain(foreign_rows(&lists[0]))
        .chain(lists.iter().flat_map(seconds_rows))
        .chain(join_rows(&lists[0]))
        .chain(hub_rows())
        .collect()
}
