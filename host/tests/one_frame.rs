//! Request 2026-08, "how far one frame can shift the length": "For read and full save, with cards, pool and the other frames
//! equal, changing one frame's card moves the fewest cycles by at most one. Adding one frame anywhere adds none or one."
//! Here on many tickets from a fixed seed, on all short lists, where T moves by each of these, and on the longest lists. That
//! two frames can move T by two is shown on lists that are written down.

// Of the generator only the tickets that are accepted are wanted here.
#[allow(dead_code)]
mod generate;
mod pools;
mod shifts;

use dockplan::reference::MAX_POOL;
use generate::tickets::{self, Fields};
use generate::Random;
use shifts::{cycles, on_another_card, with_one_more, Moves, MOST_FRAMES};
use std::collections::HashMap;
use std::path::Path;
use std::{fs, thread};

const READ: usize = 0;
const SAVE: usize = 1;
const MODES: [usize; 2] = [READ, SAVE];
const EDITIONS: [usize; 2] = [1, 2];

// ---- Tickets of every size ----

const TICKETS: usize = 20_000;
/// One ticket in so many is about as long as a ticket can be.
const LONG: usize = 100;

/// The same tickets, of up to 32 cards and with every pool, in both modes and editions. T moves alike in both editions.
#[test]
fn tickets_of_every_size() {
    thread::scope(|scope| {
        for mode in MODES {
            scope.spawn(move || {
                let [first, second] = EDITIONS.map(|edition| move_in_tickets(edition, mode));
                assert_eq!(first, second, "the editions differ");
                first.assert_each(5_000);
            });
        }
    });
}

fn move_in_tickets(edition: usize, mode: usize) -> Moves {
    let mut random = Random::new(8);
    let mut moves = Moves::default();
    let (mut cards, mut pools) = ([0; 33], [0; MAX_POOL + 1]);
    for number in 0..TICKETS {
        let ticket = ticket(&mut random, number, edition, mode);
        cards[ticket.cards] += 1;
        pools[ticket.pool] += 1;
        move_one_frame(&mut random, &ticket, &mut moves);
    }
    assert!(
        cards[1..].iter().all(|&times| times > 50),
        "cards are too rare: {cards:?}"
    );
    assert!(
        pools[1..].iter().all(|&times| times > 10),
        "a pool is too rare: {pools:?}"
    );
    moves
}

/// A ticket as the other tests have them, or one of nearly the most frames; the pool is sometimes any.
fn ticket(random: &mut Random, number: usize, edition: usize, mode: usize) -> Fields {
    let frames = match number % LONG {
        0 => random.between(MOST_FRAMES - 96, MOST_FRAMES),
        _ => tickets::length(random),
    };
    let mut ticket = tickets::fields(random, frames);
    if random.once_in(4) {
        ticket.pool = random.between(1, MAX_POOL);
    }
    Fields {
        edition,
        mode,
        edition_of_lines: edition,
        ..ticket
    }
}

/// The first frame, the last one and any are put on another card; and one frame more comes first, last and anywhere.
fn move_one_frame(random: &mut Random, ticket: &Fields, moves: &mut Moves) {
    let before = cycles(ticket);
    let text = tickets::written(ticket);
    let input = text.escape_ascii();
    let frames = ticket.frames;
    for position in [0, frames.saturating_sub(1), random.below(frames.max(1))] {
        if let Some(changed) = on_another_card(random, ticket, position) {
            let what = format_args!("cards {:?} from {input}", changed.list);
            moves.change(before, cycles(&changed), what);
        }
    }
    for position in [0, frames, random.between(0, frames)] {
        if let Some(longer) = with_one_more(random, ticket, position) {
            let what = format_args!("cards {:?} from {input}", longer.list);
            moves.addition(before, cycles(&longer), what);
        }
    }
}

// ---- Tickets that are written down ----

/// A ticket of this list. The frames of edition 02 were captured in the same second, so that one more can come anywhere.
fn with_list(edition: usize, mode: usize, cards: usize, pool: usize, list: &[usize]) -> Fields {
    Fields {
        edition,
        mode,
        cards,
        pool,
        frames: list.len(),
        list: list.to_vec(),
        seconds: vec![0x6AF3_0900; list.len()],
        edition_of_lines: edition,
    }
}

/// Both editions and both modes.
fn for_each_kind(test: impl Fn(usize, usize)) {
    for edition in EDITIONS {
        for mode in MODES {
            test(edition, mode);
        }
    }
}

/// The list with the frame at this position on this card.
fn put(list: &[usize], position: usize, card: usize) -> Vec<usize> {
    let mut changed = list.to_vec();
    changed[position] = card;
    changed
}

/// The list with one frame more, on this card, which gets this position.
fn insert(list: &[usize], position: usize, card: usize) -> Vec<usize> {
    let mut longer = list.to_vec();
    longer.insert(position, card);
    longer
}

// ---- All short lists ----

const CARDS: usize = 3;
const FRAMES: u32 = 7;

/// Every frame of every list of up to 7 frames on 3 cards, put on every other card; and one frame more, on every card and at
/// every position, as long as there are 7. With a pool of 1 each frame takes a cycle of its own. With 2, 3 and 4 T moves by
/// each number that it can move by.
#[test]
fn all_short_lists() {
    for_each_kind(|edition, mode| {
        for pool in 1..=4 {
            let moves = move_in_short_lists(edition, mode, pool);
            let [fewer, _, more] = moves.changed;
            let input = format_args!("edition {edition}, mode {mode}, pool {pool}: {moves:?}");
            assert_eq!(fewer, more, "a change and its way back, {input}");
            assert_eq!(moves.changed.iter().sum::<u64>(), 42_648, "{input}");
            assert_eq!(moves.added.iter().sum::<u64>(), 21_324, "{input}");
            match pool {
                1 => assert_eq!((moves.changed, moves.added), ([0, 42_648, 0], [0, 21_324]), "{input}"),
                _ => moves.assert_each(8_000),
            }
        }
    });
}

fn move_in_short_lists(edition: usize, mode: usize, pool: usize) -> Moves {
    let all = (0..=FRAMES).flat_map(lists);
    let with_cycles = |list: Vec<usize>| {
        let cycles = cycles(&with_list(edition, mode, CARDS, pool, &list));
        (list, cycles)
    };
    let lengths: HashMap<Vec<usize>, usize> = all.map(with_cycles).collect();
    let mut moves = Moves::default();
    for (list, &before) in &lengths {
        for position in 0..list.len() {
            for card in (0..CARDS).filter(|&card| card != list[position]) {
                let changed = put(list, position, card);
                let input = format_args!("mode {mode}, pool {pool}, cards {changed:?} from {list:?}");
                moves.change(before, lengths[&changed], input);
            }
        }
        if list.len() < FRAMES as usize {
            for position in 0..=list.len() {
                for card in 0..CARDS {
                    let longer = insert(list, position, card);
                    let input = format_args!("mode {mode}, pool {pool}, cards {longer:?} from {list:?}");
                    moves.addition(before, lengths[&longer], input);
                }
            }
        }
    }
    moves
}

/// All lists of that many frames, counted through like the digits of a number.
fn lists(frames: u32) -> impl Iterator<Item = Vec<usize>> {
    let card = |code: usize, place: u32| code / CARDS.pow(place) % CARDS;
    (0..CARDS.pow(frames)).map(move |code| (0..frames).map(|place| card(code, place)).collect())
}

// ---- Lists that are written down ----

/// Two frames on other cards can move T by two, and two frames more can add two; one at a time, each moves it by one.
#[test]
fn two_frames() {
    for_each_kind(|edition, mode| {
        let t = |list: &[usize]| cycles(&with_list(edition, mode, 2, 4, list));
        assert_eq!([t(&[0, 0, 0, 0]), t(&[0, 0, 0, 1]), t(&[0, 0, 1, 1])], [4, 3, 2]);
        assert_eq!([t(&[0, 1]), t(&[0, 0, 1]), t(&[0, 0, 0, 1])], [1, 2, 3]);
    });
}

/// The most frames, all on card 0: one of them on card 1 takes a cycle away, wherever it stands. One frame less: one more on
/// card 0 adds a cycle, and one more on card 1 adds none. With a pool of 1 each frame takes a cycle of its own.
#[test]
fn longest_lists() {
    for_each_kind(|edition, mode| {
        for pool in [1, 2, 3, MAX_POOL - 1, MAX_POOL] {
            let t = |list: &[usize]| cycles(&with_list(edition, mode, 32, pool, list));
            let alone = usize::from(pool == 1);
            let most = [0; MOST_FRAMES];
            assert_eq!(t(&most), 4096);
            let less = &most[1..];
            assert_eq!(t(less), 4095);
            for position in [0, 1, 191, 192, 193, 2048, 3903, 3904, 4094, 4095] {
                let input = format_args!("edition {edition}, mode {mode}, pool {pool}, position {position}");
                assert_eq!(t(&put(&most, position, 1)), 4095 + alone, "{input}");
                assert_eq!(t(&insert(less, position, 0)), 4096, "{input}");
                assert_eq!(t(&insert(less, position, 1)), 4095 + alone, "{input}");
            }
        }
    });
}

/// The example for support: the two tickets differ in the card at position 5 alone, and with the wrong card T is one more.
#[test]
fn the_example() {
    let examples = Path::new(env!("CARGO_MANIFEST_DIR")).join("../examples");
    let right = [0, 1, 2, 3, 0, 1, 2, 3];
    let wrong = put(&right, 5, 2);
    for (name, list, expected) in [("wrong_card.ticket", &wrong[..], 3), ("right_card.ticket", &right, 2)] {
        let mut ticket = with_list(2, READ, 4, 4, list);
        ticket.seconds = (3600..).take(8).collect();
        assert_eq!(
            fs::read(examples.join(name)).unwrap(),
            tickets::written(&ticket),
            "{name}"
        );
        assert_eq!(cycles(&ticket), expected, "{name}");
    }
}
