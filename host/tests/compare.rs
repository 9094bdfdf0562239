//! Every call of the library beside the reference, on many tickets, plans, saver calls, pairs of tickets and lists of a hub
//! from a fixed seed. The tally at the end says how much was compared, and asserts that no edition, refusal or verdict was
//! left out.

mod generate;
mod hubs;
mod judged;
mod library;
mod pairs;
mod pools;
mod same;
mod tally;

use dockplan::reference::MAX_POOL;
use generate::{plans, tickets, Random};
use std::thread;
use tally::Tally;

/// The comparison is split in two parts, for two cores.
const PARTS: u64 = 2;
const TICKETS: u64 = 120_000 / PARTS;
/// Tickets with several plans for the checker alone: short ones, and ones of 4,096 frames, which take the reference long.
const FOR_CHECKER: u64 = 6_000 / PARTS;
const LONG_FOR_CHECKER: u64 = 12 / PARTS;
const PLANS_FOR_CHECKER: u64 = 10;
/// Read plans that are tried with pools around their peak: short ones, and ones of as many frames as a pool can have buffers
/// and more.
const FOR_POOLS: u64 = 20_000 / PARTS;
const LONG_FOR_POOLS: u64 = 6_000 / PARTS;
const SAVER_SEQUENCES: u64 = 3_000 / PARTS;
const FULL_SAVERS: u64 = 20 / PARTS;
const PAIRS: u64 = 80_000 / PARTS;
const HUBS: u64 = 120_000 / PARTS;

#[test]
fn every_call_answers_as_the_reference() {
    let mut total = Tally::default();
    thread::scope(|scope| {
        let parts: Vec<_> = (0..PARTS)
            .map(|part| scope.spawn(move || compare_part(part + 1)))
            .collect();
        for part in parts {
            total.add(&part.join().expect("a comparison failed"));
        }
    });
    total.print();
    total.assert_not_vacuous();
}

fn compare_part(seed: u64) -> Tally {
    let mut random = Random::new(seed);
    let mut tally = Tally::default();
    for _ in 0..TICKETS {
        let ticket = tickets::any(&mut random);
        compare_ticket(&mut random, &ticket, &mut tally);
    }
    for _ in 0..SAVER_SEQUENCES {
        same::saving::compare_any_calls(&mut random, &mut tally);
    }
    for _ in 0..FULL_SAVERS {
        same::saving::compare_full_saver(&mut random, &mut tally);
    }
    for _ in 0..FOR_CHECKER {
        let frames = random.between(30, 300);
        same::judging::compare(&mut random, frames, PLANS_FOR_CHECKER, &mut tally);
    }
    for _ in 0..LONG_FOR_CHECKER {
        same::judging::compare(&mut random, 4096, PLANS_FOR_CHECKER, &mut tally);
    }
    for _ in 0..PAIRS {
        let pair = pairs::any(&mut random);
        same::joining::compare(&mut random, &pair, &mut tally);
    }
    for _ in 0..FOR_POOLS {
        let frames = random.between(1, 120);
        same::peaks::compare_pools(&mut random, frames, &mut tally);
    }
    for _ in 0..LONG_FOR_POOLS {
        let any = random.between(MAX_POOL + 1, 1_000);
        let frames = random.pick(&[MAX_POOL, MAX_POOL + 1, any, any]);
        same::peaks::compare_pools(&mut random, frames, &mut tally);
    }
    for _ in 0..HUBS {
        let given = hubs::any(&mut random);
        same::hub::compare(&mut random, &given, &mut tally);
    }
    tally
}

/// Every call for one ticket.
fn compare_ticket(random: &mut Random, ticket: &[u8], tally: &mut Tally) {
    let header = same::reading::compare(random, ticket, tally);
    let own = same::planning::compare(random, ticket, header.frames.into(), tally);
    if header.refusal == 0 {
        same::foreign::compare(random, ticket, &header, &own, tally);
        same::saving::compare_list(ticket, tally);
        if header.edition == 2 {
            let plan = plans::foreign(random, &own);
            same::seconds::compare(ticket, &header, &plan, tally);
        }
    } else {
        same::foreign::compare_refused(random, ticket);
    }
    if random.once_in(4) {
        let plan = plans::foreign(random, &own);
        same::typing::compare(ticket, header.frames, &plan, tally);
    }
    if random.once_in(16) {
        let plan = plans::foreign(random, &own);
        same::wrappers::compare(ticket, header.frames, &plan, tally);
        same::wrappers::compare_saver(random, &header, tally);
    }
}
