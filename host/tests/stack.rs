//! How many bytes of stack each call of the library uses, compared with the figures that include/dockplan.h states.
//! `cargo test --test stack -- --nocapture` prints the table. The measure itself is in c/stack.c.

use dockplan::raw::{
    self, CheckAnswer, CountsAnswer, HubAnswer, JoinAnswer, Part, PlanAnswer, Position, RunAnswer, Saver, SaverAnswer,
    TicketAnswer, MAX_POOL,
};
use std::ffi::c_void;
use std::hint::black_box;
use std::mem::{size_of, transmute, MaybeUninit};

extern "C" {
    fn stack_used(call: unsafe extern "C" fn(*mut c_void), argument: *mut c_void) -> usize;
    fn stack_nothing();
    fn stack_known(bytes: *mut c_void);
}

const HEADER: &str = include_str!("../../include/dockplan.h");

const MAX_CARDS: usize = 32;
const MAX_FRAMES: usize = 4096;
const MAX_PRINTED_BYTES: usize = 45061;
const MAX_TICKET_BYTES: usize = 45071;

// ---- The measure ----

/// The address of a call.
type Address = *const ();

/// A closure that makes one call, and the call that it shall make.
struct Job<'a, F> {
    make: &'a F,
    call: Address,
}

unsafe extern "C" fn run_job<F: Fn(Address)>(job: *mut c_void) {
    let job = &*(job as *const Job<F>);
    (job.make)(job.call);
}

/// What the closure and the call use together.
fn depth<F: Fn(Address)>(make: &F, call: Address) -> usize {
    let mut job = Job { make, call };
    unsafe { stack_used(run_job::<F>, &mut job as *mut Job<F> as *mut c_void) }
}

/// The call's own use: what it uses beyond an empty call that the same closure makes with the same arguments. The return
/// address, arguments passed in memory and the place of the result belong to the caller and are not in it.
/// The empty call gives no result, so a closure takes the result as `MaybeUninit`.
fn own_use<F: Fn(Address)>(call: Address, make: F) -> usize {
    let own = || depth(&make, call) - depth(&make, stack_nothing as Address);
    let used = own();
    assert_eq!(used, own(), "two measures of one call");
    used
}

#[test]
fn the_measure_sees_a_known_depth() {
    for bytes in [64, 1000, 4096, 20_000, 200_000_usize] {
        let mut argument = bytes;
        let used = unsafe { stack_used(stack_known, &mut argument as *mut usize as *mut c_void) };
        assert!((bytes..bytes + 64).contains(&used), "{used} measured for {bytes}");
    }
}

#[test]
fn an_empty_call_uses_nothing() {
    let used = own_use(stack_nothing as Address, |call| unsafe {
        transmute::<Address, extern "C" fn()>(call)();
    });
    assert_eq!(used, 0);
}

// ---- The inputs: those that make a call do all its work, and those that end it early ----

/// An edition, and the capture second that stands behind the card in each of its lines.
struct Edition {
    number: usize,
    second: &'static str,
}

const EDITIONS: [Edition; 2] = [
    Edition { number: 1, second: "" },
    Edition {
        number: 2,
        second: "6AF30900",
    },
];

impl Edition {
    fn ticket(&self, mode: usize, pool: usize, list: &[usize]) -> Vec<u8> {
        let frames = list.len();
        let mut text = format!("{:02X}{mode:02X}{MAX_CARDS:02X}{pool:04X}{frames:04X}\n", self.number);
        list.iter().for_each(|card| text += &self.line(&format!("{card:02X}")));
        text.into_bytes()
    }

    fn line(&self, card: &str) -> String {
        format!("{card}{}\n", self.second)
    }
}

/// The longest lists, with all cards and with one, and the shortest.
fn lists() -> [Vec<usize>; 4] {
    let all_cards = (0..MAX_FRAMES)
        .map(|position| position * position / 7 % MAX_CARDS)
        .collect();
    [all_cards, vec![MAX_CARDS - 1; MAX_FRAMES], vec![0], vec![]]
}

fn accepted_tickets() -> Vec<Vec<u8>> {
    let mut tickets = Vec::new();
    for edition in EDITIONS {
        for mode in 0..3 {
            for pool in [1, 16, MAX_POOL] {
                tickets.extend(lists().iter().map(|list| edition.ticket(mode, pool, list)));
            }
        }
    }
    tickets
}

/// One ticket for each of the refusals 1 to 9 and 17; where lines are at fault, it is the last one, in each edition.
fn refused_tickets() -> Vec<Vec<u8>> {
    let pool = MAX_POOL + 1;
    let headers = [
        "0100020002000G",
        "03000200020000",
        "01030200020000",
        "01002100020000",
        &format!("010002{pool:04X}0000"),
        "01000200021001",
    ];
    let mut tickets: Vec<Vec<u8>> = headers.iter().map(|header| format!("{header}\n").into()).collect();
    for edition in EDITIONS {
        for end in [
            "",
            &edition.line("0G"),
            &edition.line("20"),
            &edition.line("00").repeat(2),
        ] {
            tickets.push(with_last_line(&edition, end));
        }
    }
    tickets.push(with_last_line(&EDITIONS[1], "0000000000\n"));
    tickets
}

/// The longest ticket of an edition with another text in the place of its last line.
fn with_last_line(edition: &Edition, end: &str) -> Vec<u8> {
    let long = edition.ticket(0, MAX_POOL, &lists()[0]);
    let last_line = long.len() - edition.line("00").len();
    [&long[..last_line], end.as_bytes()].concat()
}

#[test]
fn the_refused_tickets_meet_every_refusal() {
    let refusals = refused_tickets()
        .iter()
        .map(|ticket| unsafe { raw::dockplan_parse(ticket.as_ptr(), ticket.len()) }.refusal)
        .collect::<Vec<u8>>();
    assert_eq!(refusals, [1, 2, 3, 4, 5, 6, 7, 7, 8, 9, 7, 7, 8, 9, 17]);
}

fn tickets() -> Vec<Vec<u8>> {
    [accepted_tickets(), refused_tickets()].concat()
}

/// A plan for each ticket and several more: the ticket's own; its cycles spread up to 65,535; each frame in a cycle of its
/// own, forward, backward with cycles up to 4,096 and with larger ones, and backward in blocks that the largest pool has
/// room for; all frames in one cycle; no cycles; and a plan of another length.
fn tickets_with_plans() -> Vec<(Vec<u8>, Vec<u16>)> {
    let mut pairs = Vec::new();
    for ticket in tickets() {
        let frames = unsafe { raw::dockplan_parse(ticket.as_ptr(), ticket.len()) }.frames;
        let mut own = vec![0; frames.into()];
        unsafe { raw::dockplan_plan(ticket.as_ptr(), ticket.len(), own.as_mut_ptr(), own.len()) };
        let spread = own.iter().map(|cycle| cycle.saturating_mul(15)).collect();
        let forward: Vec<u16> = (1..=frames).collect();
        let backward: Vec<u16> = (1..=frames).rev().collect();
        let mut in_blocks = forward.clone();
        in_blocks.chunks_mut(MAX_POOL).for_each(<[u16]>::reverse);
        let larger = backward.iter().map(|cycle| cycle * 15).collect();
        let in_one_cycle = vec![1; frames.into()];
        let no_cycles = vec![0; frames.into()];
        let longer = vec![1; usize::from(frames) + 1];
        let plans = [
            own,
            spread,
            forward,
            backward,
            larger,
            in_blocks,
            in_one_cycle,
            no_cycles,
            longer,
        ];
        pairs.extend(plans.map(|plan| (ticket.clone(), plan)));
    }
    pairs
}

/// Two tickets to join, and the number of their refusal in a buffer with room for all: halves of 2,048 frames whose seconds
/// mix, are equal or follow each other, one of all frames and one of none; too many frames; different tickets; and a ticket
/// for each refusal of its own, as the first and as the second.
fn pairs() -> Vec<(Vec<u8>, Vec<u8>, u8)> {
    let even = half(2048, |position| 2 * position);
    let odd = half(2048, |position| 2 * position + 1);
    let later = half(2048, |position| 0x6AF3_0000 + position);
    let all = half(MAX_FRAMES, |position| position);
    let none = half(0, |position| position);
    let one_more = half(2049, |position| position);
    let saved = EDITIONS[1].ticket(1, MAX_POOL, &lists()[0]);
    let of_edition_1 = EDITIONS[0].ticket(0, MAX_POOL, &lists()[0]);
    let mut pairs = Vec::new();
    let mut both_ways = |one: &Vec<u8>, other: &Vec<u8>, refusal| {
        pairs.push((one.clone(), other.clone(), refusal));
        pairs.push((other.clone(), one.clone(), refusal));
    };
    for (one, other) in [
        (&even, &odd),
        (&even, &later),
        (&even, &even),
        (&all, &none),
        (&none, &none),
    ] {
        both_ways(one, other, 0);
    }
    both_ways(&even, &one_more, 19);
    both_ways(&all, &saved, 18);
    both_ways(&all, &of_edition_1, 18);
    for refused in refused_tickets() {
        let own = unsafe { raw::dockplan_parse(refused.as_ptr(), refused.len()) }.refusal;
        both_ways(&refused, &all, own);
    }
    pairs
}

/// A read ticket of edition 02 with so many frames, captured in these seconds, and typed in lower case.
fn half(frames: usize, second: impl Fn(usize) -> usize) -> Vec<u8> {
    let mut text = format!("0200{MAX_CARDS:02x}{MAX_POOL:04x}{frames:04x}\n");
    for position in 0..frames {
        text += &format!("{:02x}{:08x}\n", position % MAX_CARDS, second(position));
    }
    text.into_bytes()
}

#[test]
fn the_pairs_are_joined_or_meet_every_refusal() {
    let mut met = [0; 20];
    for (first, second, refusal) in pairs() {
        let mut out = vec![0; MAX_TICKET_BYTES];
        let found = dockplan::join(&first, &second, &mut out).map_or_else(|refusal| refusal.0, |_| 0);
        assert_eq!(found, refusal);
        met[usize::from(refusal)] += 1;
    }
    let least = |number: usize| usize::from(!(10..=16).contains(&number)) * 2;
    assert!((0..met.len()).all(|number| met[number] >= least(number)), "{met:?}");
}

/// Patterns and a list for a hub, and the number of their refusal in a buffer with room for all: six cameras and one, with
/// the longest lists, in turns, in runs and mixed, and with the shortest; and one for each refusal, which for 21 is at the
/// last frame.
fn hubs() -> Vec<(Vec<u8>, Vec<u8>, u8)> {
    let list = |frames, camera: fn(usize) -> usize| (0..frames).map(|position| camera(position) as u8).collect();
    let [in_turns, in_runs]: [fn(usize) -> usize; 2] = [|position| position % 6, |position| position / 9 % 6];
    let mixed: fn(usize) -> usize = |position| position * position / 7 % 6;
    let last_at_fault: fn(usize) -> usize = |position| if position == MAX_FRAMES - 1 { 6 } else { position % 6 };
    let [one, six, seven, no_pattern] = [vec![7], vec![0, 1, 2, 5, 6, 7], vec![0; 7], vec![0, 8]];
    vec![
        (six.clone(), list(MAX_FRAMES, in_turns), 0),
        (six.clone(), list(MAX_FRAMES, in_runs), 0),
        (six.clone(), list(MAX_FRAMES, mixed), 0),
        (one.clone(), vec![0; MAX_FRAMES], 0),
        (one, vec![0], 0),
        (six.clone(), vec![], 0),
        (vec![], vec![], 20),
        (seven, list(MAX_FRAMES, in_turns), 20),
        (no_pattern, vec![0; MAX_FRAMES], 20),
        (six.clone(), list(MAX_FRAMES + 1, in_turns), 6),
        (six, list(MAX_FRAMES, last_at_fault), 21),
    ]
}

#[test]
fn the_hubs_give_cards_or_meet_every_refusal() {
    for (patterns, list, refusal) in hubs() {
        let mut cards = vec![0; MAX_FRAMES];
        let found = dockplan::hub(&patterns, &list, &mut cards).map_or_else(|refusal| refusal.0, |_| 0);
        assert_eq!(found, refusal);
    }
}

/// Records of savers: new ones, with a full pool, with all frames taken, closing, and the one of a refused new saver.
fn savers() -> Vec<Saver> {
    let new = |cards, pool| unsafe { raw::dockplan_saver_new(cards, pool) }.saver;
    let mut savers = vec![new(32, MAX_POOL as u16), new(1, 1), new(0, 0)];
    for list in lists() {
        let mut saver = new(32, MAX_POOL as u16);
        for (position, &card) in list.iter().enumerate() {
            saver = unsafe { raw::dockplan_saver_save(saver, card as u8) }.saver;
            if position + 1 == MAX_POOL || position + 1 == MAX_FRAMES {
                savers.push(saver);
            }
        }
        savers.push(unsafe { raw::dockplan_saver_close(saver) }.saver);
    }
    savers
}

// ---- Each call, on the input that makes it use most ----

fn most<I>(call: Address, inputs: &[I], make: impl Fn(Address, &I)) -> usize {
    let uses = inputs.iter().map(|input| own_use(call, |address| make(address, input)));
    uses.max().unwrap_or(0)
}

fn version() -> usize {
    own_use(raw::dockplan_version as Address, |call| unsafe {
        black_box(transmute::<Address, unsafe extern "C" fn() -> u32>(call)());
    })
}

/// A call on a ticket alone, with an answer `A`.
fn on_ticket<A>(call: Address) -> usize {
    type Call<A> = unsafe extern "C" fn(*const u8, usize) -> MaybeUninit<A>;
    most(call, &tickets(), |call, ticket| unsafe {
        black_box(transmute::<Address, Call<A>>(call)(ticket.as_ptr(), ticket.len()));
    })
}

/// A call on a ticket and a position: the first, and one that no list has.
fn at_position<A>(call: Address) -> usize {
    type Call<A> = unsafe extern "C" fn(*const u8, usize, Position) -> MaybeUninit<A>;
    let at = |position| {
        most(call, &tickets(), |call, ticket| unsafe {
            let call = transmute::<Address, Call<A>>(call);
            black_box(call(ticket.as_ptr(), ticket.len(), Position(position)));
        })
    };
    at(0).max(at(65_535))
}

/// A call on a ticket that fills a buffer of `E`: one without places, and one with room for all.
fn with_buffer<E: Clone + Default, A>(call: Address, room: usize) -> usize {
    type Call<E, A> = unsafe extern "C" fn(*const u8, usize, *mut E, usize) -> MaybeUninit<A>;
    let mut buffer = vec![E::default(); room];
    let start = buffer.as_mut_ptr();
    let with = |places| {
        most(call, &tickets(), |call, ticket| unsafe {
            let call = transmute::<Address, Call<E, A>>(call);
            black_box(call(ticket.as_ptr(), ticket.len(), start, places));
        })
    };
    with(0).max(with(room))
}

/// A join, of each pair: in a buffer without places, and in one with room for all.
fn join() -> usize {
    type Call = unsafe extern "C" fn(*const u8, usize, *const u8, usize, *mut u8, usize) -> MaybeUninit<JoinAnswer>;
    let mut buffer = vec![0; MAX_TICKET_BYTES];
    let start = buffer.as_mut_ptr();
    let pairs = pairs();
    let with = |places| {
        most(raw::dockplan_join as Address, &pairs, |call, (one, other, _)| unsafe {
            let call = transmute::<Address, Call>(call);
            black_box(call(
                one.as_ptr(),
                one.len(),
                other.as_ptr(),
                other.len(),
                start,
                places,
            ));
        })
    };
    with(0).max(with(MAX_TICKET_BYTES))
}

/// A hub, with what each is given: in a buffer without places, and in one with room for all.
fn hub() -> usize {
    type Call = unsafe extern "C" fn(*const u8, usize, *const u8, usize, *mut u8, usize) -> MaybeUninit<HubAnswer>;
    let mut buffer = vec![0; MAX_FRAMES];
    let start = buffer.as_mut_ptr();
    let hubs = hubs();
    let with = |places| {
        most(
            raw::dockplan_hub as Address,
            &hubs,
            |call, (patterns, list, _)| unsafe {
                let call = transmute::<Address, Call>(call);
                black_box(call(
                    patterns.as_ptr(),
                    patterns.len(),
                    list.as_ptr(),
                    list.len(),
                    start,
                    places,
                ));
            },
        )
    };
    with(0).max(with(MAX_FRAMES))
}

/// A call on a ticket and a plan.
fn on_plan<A>(call: Address) -> usize {
    type Call<A> = unsafe extern "C" fn(*const u8, usize, *const u16, usize) -> MaybeUninit<A>;
    most(call, &tickets_with_plans(), |call, (ticket, plan)| unsafe {
        let call = transmute::<Address, Call<A>>(call);
        black_box(call(ticket.as_ptr(), ticket.len(), plan.as_ptr(), plan.len()));
    })
}

fn saver_new() -> usize {
    type Call = unsafe extern "C" fn(u8, u16) -> MaybeUninit<SaverAnswer>;
    most(
        raw::dockplan_saver_new as Address,
        &[(32, MAX_POOL as u16), (1, 1), (33, 1), (1, 0), (1, MAX_POOL as u16 + 1)],
        |call, &(cards, pool)| unsafe {
            black_box(transmute::<Address, Call>(call)(cards, pool));
        },
    )
}

fn saver_save(card: u8) -> usize {
    type Call = unsafe extern "C" fn(Saver, u8) -> MaybeUninit<SaverAnswer>;
    most(raw::dockplan_saver_save as Address, &savers(), |call, saver| unsafe {
        black_box(transmute::<Address, Call>(call)(*saver, card));
    })
}

fn saver_close() -> usize {
    type Call = unsafe extern "C" fn(Saver) -> MaybeUninit<SaverAnswer>;
    most(raw::dockplan_saver_close as Address, &savers(), |call, saver| unsafe {
        black_box(transmute::<Address, Call>(call)(*saver));
    })
}

// ---- The table and the header's figures ----

/// What a call uses itself, the bytes of arguments that the caller puts on the stack for it, and the bytes of a result
/// that the caller must have a place for, on the stack or elsewhere.
struct Figure {
    name: &'static str,
    own: usize,
    arguments: usize,
    result: usize,
}

fn figure(name: &'static str, own: usize, arguments: usize, result: usize) -> Figure {
    Figure {
        name,
        own,
        arguments,
        result,
    }
}

fn figures() -> Vec<Figure> {
    let counts_result = size_of::<CountsAnswer>();
    let saver_result = size_of::<SaverAnswer>();
    let record = size_of::<Saver>().next_multiple_of(8);
    vec![
        figure("VERSION", version(), 0, 0),
        figure("PARSE", on_ticket::<TicketAnswer>(raw::dockplan_parse as Address), 0, 0),
        figure("LINE", at_position::<Part>(raw::dockplan_line as Address), 0, 0),
        figure(
            "LINE_REFUSAL",
            at_position::<u8>(raw::dockplan_line_refusal as Address),
            0,
            0,
        ),
        figure(
            "COUNTS",
            on_ticket::<CountsAnswer>(raw::dockplan_counts as Address),
            0,
            counts_result,
        ),
        figure(
            "PLAN",
            with_buffer::<u16, PlanAnswer>(raw::dockplan_plan as Address, MAX_FRAMES),
            0,
            0,
        ),
        figure(
            "PRINT",
            with_buffer::<u8, usize>(raw::dockplan_print as Address, MAX_PRINTED_BYTES),
            0,
            0,
        ),
        figure("JOIN", join(), 0, 0),
        figure("HUB", hub(), 0, 0),
        figure("CHECK", on_plan::<CheckAnswer>(raw::dockplan_check as Address), 0, 0),
        figure(
            "RUN_PLAN",
            on_plan::<RunAnswer>(raw::dockplan_run_plan as Address),
            0,
            0,
        ),
        figure("SAVER_NEW", saver_new(), 0, saver_result),
        figure("SAVER_SAVE", saver_save(0).max(saver_save(32)), record, saver_result),
        figure("SAVER_CLOSE", saver_close(), record, saver_result),
    ]
}

/// The number of a `#define` in the header.
fn stated(name: &str) -> Option<usize> {
    let start = format!("#define DOCKPLAN_STACK_{name} ");
    let rest = HEADER.lines().find_map(|line| line.strip_prefix(&start))?;
    rest.split_whitespace().next()?.parse().ok()
}

/// What is wrong with the header's figure: it is missing, too small, or more than 10% above what was measured.
fn complaint(figure: &Figure) -> Option<String> {
    let (name, own) = (figure.name, figure.own);
    match stated(name) {
        None => Some(format!(
            "include/dockplan.h has no line '#define DOCKPLAN_STACK_{name} {own}'"
        )),
        Some(bytes) if bytes < own => Some(format!(
            "DOCKPLAN_STACK_{name} is {bytes}, but {own} bytes were measured"
        )),
        Some(bytes) if bytes > own + own / 10 => Some(format!(
            "DOCKPLAN_STACK_{name} is {bytes}, a guess: measured were {own}"
        )),
        Some(_) => None,
    }
}

#[test]
fn each_call_uses_what_the_header_states() {
    let figures = figures();
    println!(
        "{:<14}{:>10}{:>12}{:>12}{:>10}",
        "call", "own use", "arguments", "result", "header"
    );
    for f in &figures {
        let header = stated(f.name).map_or("none".into(), |bytes| bytes.to_string());
        println!(
            "{:<14}{:>10}{:>12}{:>12}{header:>10}",
            f.name, f.own, f.arguments, f.result
        );
    }
    let complaints: Vec<String> = figures.iter().filter_map(complaint).collect();
    assert!(complaints.is_empty(), "\n{}", complaints.join("\n"));
}
