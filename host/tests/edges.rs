//! The edges of the C interface: null pointers with a count of 0, lent memory that must stay as it is, calls from two
//! threads at once, and what the archive needs from outside.

use dockplan::raw::*;
use dockplan::reference;
use std::process::Command;
use std::ptr::{null, null_mut};
use std::thread;

const NO_FRAMES: &[u8] = b"01000200020000\n";
const ONE_FRAME: &[u8] = b"01000200020001\n01\n";
const EXAMPLE: &[u8] = b"01000200020003\n00\n00\n01\n";
const WITH_SECONDS: &[u8] = b"02000200020003\n0000000E10\n0000000E10\n0100000E11\n";

/// "With a count of 0 any pointer will do, NULL too": the answers for no ticket.
#[test]
fn null_is_an_empty_ticket() {
    let mut plan = [0xA5A5; 4];
    let mut text = [0xA5; 8];
    let mut expected_text = text;
    unsafe {
        assert_eq!(dockplan_parse(null(), 0), reference::parse(&[]));
        assert_eq!(dockplan_line(null(), 0, Position(0)), reference::line(&[], Position(0)));
        assert_eq!(
            dockplan_line_refusal(null(), 0, Position(0)),
            reference::line_refusal(&[], Position(0))
        );
        assert_eq!(dockplan_counts(null(), 0), reference::counts(&[]));
        assert_eq!(
            dockplan_plan(null(), 0, plan.as_mut_ptr(), plan.len()),
            reference::plan(&[], &mut [0; 4])
        );
        assert_eq!(dockplan_plan(null(), 0, null_mut(), 0), reference::plan(&[], &mut []));
        let bytes = dockplan_print(null(), 0, text.as_mut_ptr(), text.len());
        assert_eq!(bytes, reference::print(&[], &mut expected_text));
        assert_eq!(dockplan_print(null(), 0, null_mut(), 0), reference::print(&[], &mut []));
        assert_eq!(
            dockplan_check(null(), 0, plan.as_ptr(), plan.len()),
            reference::check(&[], &plan)
        );
        assert_eq!(dockplan_check(null(), 0, null(), 0), reference::check(&[], &[]));
        assert_eq!(
            dockplan_run_plan(null(), 0, plan.as_ptr(), plan.len()),
            reference::run_plan(&[], &plan)
        );
        assert_eq!(dockplan_run_plan(null(), 0, null(), 0), reference::run_plan(&[], &[]));
    }
    assert_eq!(plan, [0xA5A5; 4]);
    assert_eq!(text, expected_text);
}

/// The same for plans and text: a null buffer has no places, and a null plan has no cycles.
#[test]
fn null_is_an_empty_plan() {
    for ticket in [NO_FRAMES, ONE_FRAME, EXAMPLE, WITH_SECONDS] {
        let (start, bytes) = (ticket.as_ptr(), ticket.len());
        unsafe {
            assert_eq!(
                dockplan_plan(start, bytes, null_mut(), 0),
                reference::plan(ticket, &mut [])
            );
            assert_eq!(
                dockplan_print(start, bytes, null_mut(), 0),
                reference::print(ticket, &mut [])
            );
            assert_eq!(dockplan_check(start, bytes, null(), 0), reference::check(ticket, &[]));
            assert_eq!(
                dockplan_run_plan(start, bytes, null(), 0),
                reference::run_plan(ticket, &[])
            );
        }
    }
}

/// The same for each of the three pieces of memory that a join is lent: a null ticket is an empty one, which is refused,
/// and a null buffer has no places.
#[test]
fn null_to_join() {
    const NONE: &[u8] = b"02000200020000\n";
    let mut text = [0xA5; 26];
    let (start, places) = (text.as_mut_ptr(), text.len());
    let refused = |refusal| JoinAnswer { refusal, bytes: 0 };
    for ticket in [NONE, WITH_SECONDS] {
        let (one, bytes) = (ticket.as_ptr(), ticket.len());
        unsafe {
            assert_eq!(dockplan_join(null(), 0, one, bytes, start, places), refused(1));
            assert_eq!(dockplan_join(one, bytes, null(), 0, start, places), refused(1));
            assert_eq!(dockplan_join(one, bytes, one, bytes, null_mut(), 0), refused(10));
            assert_eq!(dockplan_join(null(), 0, one, bytes, null_mut(), 0), refused(1));
            assert_eq!(dockplan_join(one, bytes, null(), 0, null_mut(), 0), refused(1));
        }
    }
    unsafe {
        assert_eq!(dockplan_join(null(), 0, null(), 0, start, places), refused(1));
        assert_eq!(dockplan_join(null(), 0, null(), 0, null_mut(), 0), refused(1));
        let falling = b"02000200020002\n0000000001\n0000000000\n";
        let (one, bytes) = (falling.as_ptr(), falling.len());
        assert_eq!(dockplan_join(one, bytes, null(), 0, null_mut(), 0), refused(17));
    }
    assert_eq!(text, [0xA5; 26]);
}

/// The same for each of the three pieces of memory that a hub is lent: no patterns are refused by 20, an empty list is good,
/// and a null buffer has no places.
#[test]
fn null_for_the_hub() {
    let (patterns, list) = ([0, 7], [0, 1, 0]);
    let (pattern, camera) = (patterns.as_ptr(), list.as_ptr());
    let mut cards = [0xA5; 4];
    let (start, places) = (cards.as_mut_ptr(), cards.len());
    let refused = |refusal| HubAnswer { refusal, frames: 0 };
    let no_frames = HubAnswer::default();
    unsafe {
        assert_eq!(dockplan_hub(null(), 0, camera, 3, start, places), refused(20));
        assert_eq!(dockplan_hub(null(), 0, camera, 3, null_mut(), 0), refused(20));
        assert_eq!(dockplan_hub(null(), 0, null(), 0, start, places), refused(20));
        assert_eq!(dockplan_hub(null(), 0, null(), 0, null_mut(), 0), refused(20));
        assert_eq!(dockplan_hub(pattern, 2, camera, 3, null_mut(), 0), refused(10));
        assert_eq!(dockplan_hub(pattern, 1, camera, 3, null_mut(), 0), refused(21));
        assert_eq!(dockplan_hub(pattern, 2, null(), 0, start, places), no_frames);
        assert_eq!(dockplan_hub(pattern, 2, null(), 0, null_mut(), 0), no_frames);
    }
    assert_eq!(cards, [0xA5; 4]);
}

/// The tickets and the checked plan are lent to be read. They stay as they are, wherever in memory they start.
#[test]
fn inputs_stay_as_they_are() {
    for shift in 0..8 {
        for ticket in [EXAMPLE, WITH_SECONDS] {
            call_with_ticket_at(shift, ticket);
        }
    }
}

fn call_with_ticket_at(shift: usize, example: &[u8]) {
    let bytes = example.len();
    let mut memory = vec![b'0'; shift];
    memory.extend(example);
    let before = memory.clone();
    let mut plan: [u16; 3] = [2, 1, 2];
    let mut out = [0; 3];
    let mut text = [0; 128];
    unsafe {
        let ticket = memory.as_mut_ptr().add(shift).cast_const();
        let cycles = plan.as_mut_ptr().cast_const();
        assert_eq!(dockplan_parse(ticket, bytes), reference::parse(example));
        dockplan_line(ticket, bytes, Position(1));
        dockplan_line_refusal(ticket, bytes, Position(1));
        dockplan_counts(ticket, bytes);
        dockplan_plan(ticket, bytes, out.as_mut_ptr(), out.len());
        dockplan_print(ticket, bytes, text.as_mut_ptr(), text.len());
        dockplan_check(ticket, bytes, cycles, plan.len());
        dockplan_run_plan(ticket, bytes, cycles, plan.len());
        let joined = dockplan_join(ticket, bytes, ticket, bytes, text.as_mut_ptr(), text.len());
        assert_eq!(joined, reference::join(example, example, &mut [0; 128]));
    }
    assert_eq!(memory, before);
    assert_eq!(plan, [2, 1, 2]);
}

/// The same for the patterns and the list of a hub, which may be the same memory. What lies around the buffer stays, too.
#[test]
fn inputs_of_the_hub_stay_as_they_are() {
    for shift in 0..8 {
        let mut numbers = vec![0xA5; shift];
        numbers.extend([0, 5, 2, 1, 4, 3]);
        let before = numbers.clone();
        let mut cards = [0xA5; 24];
        unsafe {
            let own = numbers.as_mut_ptr().add(shift).cast_const();
            let answer = dockplan_hub(own, 6, own, 6, cards.as_mut_ptr().add(shift), 8);
            assert_eq!(answer, HubAnswer { refusal: 0, frames: 6 });
        }
        assert_eq!(numbers, before);
        let mut expected = [0xA5; 24];
        expected[shift..shift + 6].copy_from_slice(&[0, 0, 0, 4, 4, 0]);
        assert_eq!(cards, expected);
    }
}

/// Two threads call at the same time, and each gets the answers for its own ticket, one of each edition.
#[test]
fn two_threads_do_not_meet() {
    thread::scope(|scope| {
        for (edition_and_mode, second, m) in [("0100", "", 3), ("0201", "00000E10", 40)] {
            scope.spawn(move || call_again_and_again(edition_and_mode, second, m));
        }
    });
}

/// `second` is what stands behind the card in each line.
fn call_again_and_again(edition_and_mode: &str, second: &str, m: u16) {
    let list: Vec<u8> = (0..300u32).map(|position| (position * position % 7) as u8).collect();
    let mut ticket = format!("{edition_and_mode}07{m:04X}{:04X}\n", list.len()).into_bytes();
    list.iter()
        .for_each(|card| ticket.extend(format!("{card:02X}{second}\n").bytes()));
    let mut plan = vec![0; list.len()];
    let mut text = vec![0; 5 + 11 * list.len()];
    let plan_answer = reference::plan(&ticket, &mut plan);
    reference::print(&ticket, &mut text);
    for _ in 0..300 {
        let mut out = vec![0; plan.len()];
        let mut printed = vec![0; text.len()];
        assert_eq!(dockplan::plan(&ticket, &mut out), Ok(plan_answer.cycles));
        assert_eq!(out, plan);
        assert_eq!(dockplan::print(&ticket, &mut printed), text.len());
        assert_eq!(printed, text);
        let checked = unsafe { dockplan_check(ticket.as_ptr(), ticket.len(), plan.as_ptr(), plan.len()) };
        assert_eq!(checked, reference::check(&ticket, &plan));
        let run = unsafe { dockplan_run_plan(ticket.as_ptr(), ticket.len(), plan.as_ptr(), plan.len()) };
        assert_eq!(run, reference::run_plan(&ticket, &plan));
        join_with_itself(&list, m);
        gather(&list, m);
        save_all(7, m, &list);
    }
}

fn join_with_itself(list: &[u8], m: u16) {
    let mut ticket = format!("020007{m:04X}{:04X}\n", list.len());
    for (position, card) in list.iter().enumerate() {
        ticket += &format!("{card:02X}{:08X}\n", position * usize::from(m));
    }
    let bytes = 15 + 11 * 2 * list.len();
    let (mut joined, mut expected) = (vec![0; bytes], vec![0; bytes]);
    let ticket = ticket.as_bytes();
    assert_eq!(dockplan::join(ticket, ticket, &mut joined), Ok(bytes));
    assert_eq!(reference::join(ticket, ticket, &mut expected).bytes, bytes);
    assert_eq!(joined, expected);
}

/// The list's numbers as those of six cameras, 6 being 0 once more; with another `m` the patterns are others.
fn gather(list: &[u8], m: u16) {
    let cameras: Vec<u8> = list.iter().map(|number| number % 6).collect();
    let patterns = [0, 1, 2, 3, 4, 5].map(|camera| ((camera * m) % 8) as u8);
    let (mut cards, mut expected) = (vec![0; list.len()], vec![0; list.len()]);
    assert_eq!(dockplan::hub(&patterns, &cameras, &mut cards), Ok(list.len() as u16));
    reference::hub(&patterns, &cameras, &mut expected);
    assert_eq!(cards, expected);
}

fn save_all(cards: u8, m: u16, list: &[u8]) {
    let mut record = unsafe { dockplan_saver_new(cards, m) }.saver;
    let (_, mut saver) = reference::Saver::new(cards, m);
    for &card in list {
        let answer = unsafe { dockplan_saver_save(record, card) };
        assert_eq!(answer, saver.save(card));
        record = answer.saver;
    }
}

/// "Beside the calls below it needs memcpy and memset, and nothing else": no allocation and no other call out.
#[test]
fn archive_needs_memcpy_and_memset_alone() {
    let needed = names("-u");
    assert!(
        needed.iter().all(|name| name == "memcpy" || name == "memset"),
        "the archive needs {needed:?}"
    );
}

/// The archive asked above is the one with the calls.
#[test]
fn archive_has_the_calls() {
    let defined = names("--defined-only");
    for call in [
        "version",
        "parse",
        "line",
        "line_refusal",
        "counts",
        "plan",
        "print",
        "join",
        "hub",
        "check",
        "run_plan",
    ] {
        assert!(defined.contains(&format!("dockplan_{call}")), "{call}");
    }
    for call in ["new", "save", "close"] {
        assert!(defined.contains(&format!("dockplan_saver_{call}")), "{call}");
    }
}

/// The names that nm lists for the archive. A line with a colon at its end names a member.
fn names(option: &str) -> Vec<String> {
    let output = Command::new("nm")
        .args([option, env!("DOCKPLAN_ARCHIVE")])
        .output()
        .unwrap();
    assert!(
        output.status.success(),
        "nm: {}",
        String::from_utf8_lossy(&output.stderr)
    );
    let text = String::from_utf8(output.stdout).unwrap();
    let lines = text.lines().filter(|line| !line.ends_with(':'));
    lines
        .filter_map(|line| line.split_whitespace().last())
        .map(String::from)
        .collect()
}
