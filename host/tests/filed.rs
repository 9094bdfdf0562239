//! Request 2026-07: "Filed tickets asking for more get 5 too." A ticket that was good up to the limit before, with a pool of
//! 193 to 1,024 and everything else in order, is refused by 5 in every call that takes a ticket. Nothing is written, and the
//! other numbers of the answer are 0. With a pool of 192 the same ticket is accepted.

mod library;
mod pools;

use dockplan::raw::*;

/// The limit, written down from the request.
const LIMIT: usize = 192;

const READ: u8 = 0;
const SAVE: u8 = 1;
const SAVE_AND_KEEP: u8 = 2;

/// What stands in lent memory before a call.
const MARK: u8 = 0xA5;
const MARKED_CYCLE: u16 = 0xA5A5;

/// A ticket of 8 cards before its pool is written down. In edition 02 two frames have each second.
#[derive(Clone, Copy)]
struct Kind<'a> {
    edition: usize,
    mode: u8,
    list: &'a [u8],
}

impl Kind<'_> {
    fn ticket(&self, pool: usize) -> Vec<u8> {
        let Kind { edition, mode, list } = self;
        let mut text = format!("{edition:02X}{mode:02X}08{pool:04X}{:04X}\n", list.len());
        for (position, card) in list.iter().enumerate() {
            text += &match edition {
                1 => format!("{card:02X}\n"),
                _ => format!("{card:02X}{:08X}\n", position / 2),
            };
        }
        text.into_bytes()
    }

    fn frames(&self) -> u16 {
        self.list.len() as u16
    }

    fn can_be_joined(&self) -> bool {
        self.edition == 2 && self.mode == READ
    }
}

/// Every mode and edition: without frames, with three, and with more frames than any pool has buffers, on a hub's cards.
fn for_each_kind(test: impl Fn(Kind)) {
    let mut hub = [0; 400];
    let cameras = [0, 1, 2, 0].repeat(100);
    let gathered = library::hub(&[0, 4, 5], &cameras, &mut hub);
    let expected = HubAnswer {
        refusal: 0,
        frames: 400,
    };
    assert_eq!(gathered, expected);
    for list in [&[][..], &[0, 0, 1], &hub] {
        for mode in [READ, SAVE, SAVE_AND_KEEP] {
            for edition in 1..=2 {
                test(Kind { edition, mode, list });
            }
        }
    }
}

/// The positions at which a line is asked for.
fn positions(kind: Kind) -> [Position; 4] {
    [0, kind.frames() / 2, kind.frames(), u16::MAX].map(Position)
}

/// One frame a cycle, in list order, which is correct for every list and pool.
fn one_a_cycle(kind: Kind) -> Vec<u16> {
    (1..=kind.frames()).collect()
}

// ---- Tickets that were good ----

#[test]
fn filed_tickets_are_refused_by_every_call() {
    for_each_kind(|kind| {
        for pool in LIMIT + 1..=pools::BEFORE {
            let ticket = kind.ticket(pool);
            is_refused_when_read(kind, &ticket);
            is_refused_when_planned(kind, &ticket);
            is_refused_with_a_plan(kind, &ticket);
        }
    });
}

/// So are those with a pool that never was good.
#[test]
fn other_pools_are_refused_too() {
    for_each_kind(|kind| {
        for pool in pools::GIVE_5 {
            let ticket = kind.ticket(pool);
            is_refused_when_read(kind, &ticket);
            is_refused_when_planned(kind, &ticket);
            is_refused_with_a_plan(kind, &ticket);
        }
    });
}

fn is_refused_when_read(kind: Kind, ticket: &[u8]) {
    let input = ticket.escape_ascii();
    let header = TicketAnswer {
        refusal: 5,
        ..Default::default()
    };
    assert_eq!(library::parse(ticket), header, "{input}");
    let counts = CountsAnswer {
        refusal: 5,
        ..Default::default()
    };
    assert_eq!(library::counts(ticket), counts, "{input}");
    for position in positions(kind) {
        assert_eq!(library::line(ticket, position), Part::default(), "{input}");
        assert_eq!(library::line_refusal(ticket, position), 5, "{input}");
    }
}

/// The plan in buffers with room, without, and without any place; and the printed line FF05 where it has room.
fn is_refused_when_planned(kind: Kind, ticket: &[u8]) {
    let input = ticket.escape_ascii();
    let frames = kind.list.len();
    let refused = PlanAnswer {
        refusal: 5,
        ..Default::default()
    };
    for places in [frames, frames + 3, frames.saturating_sub(1), 0] {
        let mut plan = vec![MARKED_CYCLE; places];
        assert_eq!(library::plan(ticket, &mut plan), refused, "{places} places, {input}");
        assert_eq!(plan, vec![MARKED_CYCLE; places], "{places} places, {input}");
    }
    for places in [5, 6, 5 + 11 * frames, 4, 0] {
        let mut text = vec![MARK; places];
        let written = library::print(ticket, &mut text);
        let mut expected = vec![MARK; places];
        if let Some(line) = expected.get_mut(..5) {
            line.copy_from_slice(b"FF05\n");
        }
        assert_eq!(written, if places < 5 { 0 } else { 5 }, "{places} places, {input}");
        assert_eq!(text, expected, "{places} places, {input}");
    }
}

/// A plan of the right length and one of another, which 5 comes before. Both stay as they are.
fn is_refused_with_a_plan(kind: Kind, ticket: &[u8]) {
    let input = ticket.escape_ascii();
    let check = CheckAnswer {
        refusal: 5,
        ..Default::default()
    };
    let run = RunAnswer {
        refusal: 5,
        ..Default::default()
    };
    let longer: Vec<u16> = (1..=kind.frames() + 1).collect();
    for plan in [one_a_cycle(kind), longer] {
        let lent = plan.clone();
        assert_eq!(library::check(ticket, &lent), check, "{input}");
        assert_eq!(library::run_plan(ticket, &lent), run, "{input}");
        assert_eq!(lent, plan, "{input}");
    }
}

/// A filed ticket beside one with the largest pool, in either place, beside another filed one, and beside itself, in buffers
/// with room and without. It comes before 18, also where it is of another edition or mode.
#[test]
fn filed_tickets_are_not_joined() {
    for_each_kind(|kind| {
        let edition_02_read = Kind {
            edition: 2,
            mode: READ,
            ..kind
        };
        let good = edition_02_read.ticket(LIMIT);
        for pool in LIMIT + 1..=pools::BEFORE {
            let filed = kind.ticket(pool);
            let another = kind.ticket(if pool == pools::BEFORE { LIMIT + 1 } else { pool + 1 });
            for (first, second) in [(&filed, &good), (&good, &filed), (&filed, &another), (&filed, &filed)] {
                for places in [15 + 11 * 2 * kind.list.len(), 0] {
                    let mut joined = vec![MARK; places];
                    let answer = library::join(first, second, &mut joined);
                    let refused = JoinAnswer { refusal: 5, bytes: 0 };
                    assert_eq!(answer, refused, "pool {pool}, {places} places");
                    assert!(joined.iter().all(|&byte| byte == MARK), "pool {pool}, {places} places");
                }
            }
        }
    });
}

// ---- The same tickets with a pool of 192 ----

#[test]
fn with_a_pool_of_192_they_are_accepted() {
    for_each_kind(|kind| {
        let ticket = kind.ticket(LIMIT);
        let input = ticket.escape_ascii();
        let header = TicketAnswer {
            refusal: 0,
            edition: kind.edition as u8,
            mode: kind.mode,
            cards: 8,
            pool: 192,
            frames: kind.frames(),
        };
        assert_eq!(library::parse(&ticket), header, "{input}");
        assert_eq!(library::counts(&ticket).refusal, 0, "{input}");
        for position in positions(kind) {
            let expected = if position.0 < kind.frames() { 0 } else { 16 };
            assert_eq!(library::line_refusal(&ticket, position), expected, "{input}");
        }
        let mut plan = vec![MARKED_CYCLE; kind.list.len()];
        assert_eq!(library::plan(&ticket, &mut plan).refusal, 0, "{input}");
        assert!(plan.iter().all(|&cycle| cycle <= kind.frames()), "{input}");
        let mut text = vec![MARK; 5 + 11 * kind.list.len()];
        assert_eq!(library::print(&ticket, &mut text), text.len(), "{input}");
        is_accepted_with_a_plan(kind, &ticket);
        is_joined_with_itself(kind, &ticket);
    });
}

/// One frame a cycle is valid, except that the checker does not take save and keep, and its run hands over all frames.
fn is_accepted_with_a_plan(kind: Kind, ticket: &[u8]) {
    let input = ticket.escape_ascii();
    let plan = one_a_cycle(kind);
    let checked = library::check(ticket, &plan);
    let expected = if kind.mode == SAVE_AND_KEEP {
        (12, NO_VERDICT)
    } else {
        (0, VALID)
    };
    assert_eq!((checked.refusal, checked.verdict), expected, "{input}");
    let run = library::run_plan(ticket, &plan);
    assert_eq!(
        (run.refusal, run.complete, run.needed.0),
        (0, true, kind.frames()),
        "{input}"
    );
}

/// Each frame twice, unless the ticket is of another edition or mode, which 18 is for.
fn is_joined_with_itself(kind: Kind, ticket: &[u8]) {
    let bytes = 15 + 11 * 2 * kind.list.len();
    let answer = library::join(ticket, ticket, &mut vec![MARK; bytes]);
    let expected = if kind.can_be_joined() {
        JoinAnswer { refusal: 0, bytes }
    } else {
        JoinAnswer { refusal: 18, bytes: 0 }
    };
    assert_eq!(answer, expected, "{}", ticket.escape_ascii());
}

// ---- The saver ----

/// "The record that comes with such a refusal has one card, a pool of 1, nothing taken or waiting, and closing begun": it takes
/// no frame and has no cycle to make.
#[test]
fn savers_for_such_pools() {
    let none = Saver {
        cards: 1,
        pool: 1,
        taken: 0,
        made: Cycle(0),
        waiting: 0,
        closing: true,
        card: [0; MAX_POOL],
        position: [Position(0); MAX_POOL],
    };
    let refused = |refusal| SaverAnswer {
        refusal,
        cycle: Cycle(0),
        written: [Position(NONE); 32],
        saver: none,
    };
    for pool in (LIMIT + 1..=pools::BEFORE).chain(pools::GIVE_5) {
        for cards in [1, 8, 32] {
            let new = library::saver_new(cards, pool as u16);
            assert_eq!(new, refused(5), "{cards} cards, pool {pool}");
            assert_eq!(library::saver_save(new.saver, 0), refused(15));
            assert_eq!(library::saver_close(new.saver), refused(14));
        }
    }
    for pool in pools::PASS {
        let new = library::saver_new(8, pool as u16);
        assert_eq!((new.refusal, usize::from(new.saver.pool)), (0, pool));
        assert_eq!(library::saver_save(new.saver, 7).refusal, 0);
    }
}
