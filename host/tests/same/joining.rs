//! Two tickets joined, into buffers that are exact, longer, one place short and empty. The whole buffer is compared, and a
//! joined ticket is read and planned again.

use super::typing::in_upper_case;
use super::{lent, marked, planned, wrappers, MARGIN};
use crate::generate::tickets::{line_bytes, HEADER_BYTES};
use crate::generate::Random;
use crate::library;
use crate::tally::Tally;
use dockplan::raw::{JoinAnswer, TicketAnswer};
use dockplan::reference;
use std::fmt::{Debug, Display};

/// The bytes of the longest ticket: the header and 4,096 lines of 11 bytes.
const LONGEST: usize = 15 + 11 * 4096;

/// The two tickets to join.
type Pair<'a> = [&'a [u8]; 2];

/// Fails where the library's answer is not the reference's, and shows the input.
#[track_caller]
fn same<T: PartialEq + Debug>(pair: Pair, call: impl Display, library: &T, reference: &T) {
    let [first, second] = pair.map(<[u8]>::escape_ascii);
    assert!(
        library == reference,
        "{call} of tickets {first} and {second}\n  library: {library:?}\nreference: {reference:?}"
    );
}

/// Compares the joins of a pair, and of its first ticket with itself, which is then the same memory twice.
pub fn compare(random: &mut Random, pair: &[Vec<u8>; 2], tally: &mut Tally) {
    let [first, second] = pair;
    compare_pair(random, [first, second], tally);
    if random.once_in(4) {
        compare_pair(random, [first, first], tally);
    }
    if random.once_in(16) {
        for places in [LONGEST, 0, 15] {
            wrappers::compare_join(first, second, places);
        }
    }
}

fn compare_pair(random: &mut Random, pair: Pair, tally: &mut Tally) {
    let headers = pair.map(library::parse);
    let frames = headers.map(|header| usize::from(header.frames));
    let bytes = HEADER_BYTES + line_bytes(2) * (frames[0] + frames[1]);
    let mut few = vec![bytes - 1, 0];
    if random.once_in(4) {
        few.extend([14, random.below(bytes)]);
    }
    for places in few {
        let (answer, _) = compare_join(pair, places);
        tally.joins.count_with_few_places(&headers, &answer);
    }
    compare_join(pair, bytes + random.between(1, 20));
    if random.once_in(16) {
        compare_join(pair, LONGEST);
    }
    let (answer, buffer) = compare_join(pair, bytes);
    tally.joins.count(pair, &headers, &answer);
    compare_twins(pair, answer, &buffer);
    if answer.refusal == 0 {
        is_one_showing(pair, &headers, &buffer, tally);
    }
}

/// Compares the join's answer and buffer, and answers what was lent.
fn compare_join(pair: Pair, places: usize) -> (JoinAnswer, Vec<u8>) {
    let [first, second] = pair;
    let mut buffer = marked(places, |place| 0x80 | place as u8);
    let mut expected = buffer.clone();
    let answer = library::join(first, second, lent(&mut buffer));
    let reference = reference::join(first, second, lent(&mut expected));
    same(pair, format_args!("join in {places} places"), &answer, &reference);
    same(
        pair,
        format_args!("buffer of a join in {places} places"),
        &buffer,
        &expected,
    );
    (answer, buffer[MARGIN..MARGIN + places].to_vec())
}

/// The pair in upper case is answered alike: what was written depends on the values alone.
fn compare_twins(pair: Pair, answer: JoinAnswer, buffer: &[u8]) {
    let [first, second] = pair.map(in_upper_case);
    let mut twin = marked(buffer.len(), |place| 0x80 | place as u8);
    let expected = library::join(&first, &second, lent(&mut twin));
    same(pair, "join and that in upper case", &answer, &expected);
    same(pair, "buffer and that in upper case", &buffer, &&*lent(&mut twin));
}

/// "Written as an upper-case edition 02 ticket, which the reader accepts": the header of both, with the frames of both, and
/// each card's frames of both. "Its fewest cycles are never below those of either half."
fn is_one_showing(pair: Pair, headers: &[TicketAnswer; 2], joined: &[u8], tally: &mut Tally) {
    let frames = headers.map(|header| header.frames);
    let header = TicketAnswer {
        frames: frames[0] + frames[1],
        ..headers[0]
    };
    same(pair, "header of the joined", &library::parse(joined), &header);
    same(pair, "case of the joined", &joined, &&*in_upper_case(joined));
    let [first, second] = pair.map(|ticket| library::counts(ticket).frames);
    let mut counts = first;
    counts.iter_mut().zip(second).for_each(|(count, more)| *count += more);
    same(pair, "counts of the joined", &library::counts(joined).frames, &counts);
    let (refusal, cycles, _) = planned(joined, header.frames);
    same(pair, "refusal of the joined plan", &refusal, &0);
    for (ticket, frames) in pair.into_iter().zip(frames) {
        let (_, of_half, _) = planned(ticket, frames);
        same(pair, "T not below a half's", &(cycles.max(of_half)), &cycles);
        tally.joins.count_cycles(of_half, cycles);
    }
}
