//! Request 2026-06, "a field hub with eight cards", on patterns and lists that are written down by hand, through the safe
//! wrapper: the cards, sizes and buffers, the grounds for 20, 6, 21 and 10 and their order, and all short lists.

use dockplan::Refusal;

/// "The eight patterns are fixed."
const PATTERNS: [[u8; 8]; 8] = [
    [0, 1, 2, 3, 4, 5, 6, 7],
    [0, 3, 6, 1, 4, 7, 2, 5],
    [0, 5, 2, 7, 4, 1, 6, 3],
    [0, 7, 6, 5, 4, 3, 2, 1],
    [4, 5, 6, 7, 0, 1, 2, 3],
    [4, 7, 2, 5, 0, 3, 6, 1],
    [4, 1, 6, 3, 0, 5, 2, 7],
    [4, 3, 2, 1, 0, 7, 6, 5],
];

/// Places for the cards of the longest list.
const ROOM: usize = 4096;
/// What stands in a buffer before the call.
const MARK: u8 = 0xA5;

/// The cards. Places behind them, or all of them beside a refusal, have their content still.
fn hub_in(places: usize, patterns: &[u8], cameras: &[u8]) -> Result<Vec<u8>, u8> {
    let mut out = vec![MARK; places];
    let answer = dockplan::hub(patterns, cameras, &mut out);
    let written = answer.map_or(0, usize::from);
    assert!(out[written..].iter().all(|&byte| byte == MARK), "later places");
    out.truncate(written);
    answer.map(|_| out).map_err(|Refusal(number)| number)
}

fn hub(patterns: &[u8], cameras: &[u8]) -> Result<Vec<u8>, u8> {
    hub_in(ROOM, patterns, cameras)
}

/// So many frames, of these cameras in turns.
fn in_turns(cameras: usize, frames: usize) -> Vec<u8> {
    (0..frames).map(|position| (position % cameras) as u8).collect()
}

/// Two cameras with patterns 0 and 4: the first goes 0 1 2 3 4 5 and the second 4 5 6 7 0 1, whichever comes in between.
#[test]
fn two_cameras() {
    let cameras = [0, 0, 0, 1, 0, 1, 1, 0, 0, 1, 1, 1];
    let cards = [0, 1, 2, 4, 3, 5, 6, 4, 5, 7, 0, 1];
    assert_eq!(hub(&[0, 4], &cameras), Ok(cards.to_vec()));
    let other_way = [4, 5, 6, 0, 7, 1, 2, 0, 1, 3, 4, 5];
    assert_eq!(hub(&[4, 0], &cameras), Ok(other_way.to_vec()));
}

// ---- The cards ----

/// Each pattern, of the only camera and of the last of six: its row, then again from its first card on.
#[test]
fn every_pattern() {
    for (number, row) in PATTERNS.iter().enumerate() {
        let number = number as u8;
        let again = [&row[..], row, &row[..3]].concat();
        assert_eq!(hub(&[number], &[0; 19]), Ok(again.clone()), "pattern {number}");
        assert_eq!(
            hub(&[7, 6, 5, 4, 3, number], &[5; 19]),
            Ok(again),
            "pattern {number} of the last"
        );
    }
}

/// Each pattern names each of the eight cards once.
#[test]
fn every_pattern_names_every_card() {
    for number in 0..8 {
        let mut cards = hub(&[number], &[0; 8]).unwrap();
        cards.sort_unstable();
        assert_eq!(cards, [0, 1, 2, 3, 4, 5, 6, 7], "pattern {number}");
    }
}

/// The frames of each camera are counted apart, also where two cameras have the same pattern.
#[test]
fn cameras_are_counted_apart() {
    assert_eq!(hub(&[0, 0], &[0, 0, 1, 0, 1, 1]), Ok(vec![0, 1, 0, 2, 1, 2]));
    assert_eq!(hub(&[1, 1, 1], &[2, 1, 0, 2, 1, 0]), Ok(vec![0, 0, 0, 3, 3, 3]));
    assert_eq!(hub(&[3, 7], &[1, 0, 1, 0, 1, 0]), Ok(vec![4, 0, 3, 7, 2, 6]));
    let six = hub(&[0, 1, 2, 3, 4, 5], &in_turns(6, 18));
    let rounds = [[0, 0, 0, 0, 4, 4], [1, 3, 5, 7, 5, 7], [2, 6, 2, 6, 6, 2]];
    assert_eq!(six, Ok(rounds.concat()));
}

/// A camera that was silent for long goes on where it was, and its ninth frame is on the card of its first.
#[test]
fn places_go_round() {
    let list = |silent: usize| [vec![1; 7], vec![0; silent], vec![1; 3]].concat();
    for silent in [0, 1, 7, 8, 9, 255, 256, 257, 4000] {
        let cards = hub(&[0, 2], &list(silent)).unwrap();
        assert_eq!(cards[..7], [0, 5, 2, 7, 4, 1, 6], "{silent} silent");
        assert_eq!(cards[7 + silent..], [3, 0, 5], "{silent} silent");
    }
}

/// Counted up to the last frame of the longest list, by one camera and by six.
#[test]
fn longest_lists() {
    let cards = hub(&[6], &[0; ROOM]).unwrap();
    assert_eq!(cards, PATTERNS[6].repeat(512));
    let cards = hub(&[0, 1, 2, 3, 4, 5], &in_turns(6, ROOM)).unwrap();
    let expected = |position: usize| PATTERNS[position % 6][position / 6 % 8];
    assert_eq!(cards, (0..ROOM).map(expected).collect::<Vec<u8>>());
}

/// Nothing is kept from one call to the next, a refused one too.
#[test]
fn calls_do_not_remember() {
    let cameras = [0, 1, 0, 0, 1];
    let cards = hub(&[2, 5], &cameras);
    assert_eq!(cards, Ok(vec![0, 4, 5, 2, 7]));
    assert_eq!(hub(&[2, 5], &[0, 0, 0, 1, 1, 2]), Err(21));
    assert_eq!(hub_in(4, &[2, 5], &cameras), Err(10));
    assert_eq!(hub(&[2, 5], &cameras), cards);
}

/// All lists of up to 8 frames of 2 cameras, with all pairs of patterns; of up to 5 frames of 3, with several; and the same
/// lists of the last cameras of six.
#[test]
fn all_short_lists() {
    for pair in 0..64 {
        all_lists(2, 8, &[pair / 8, pair % 8]);
    }
    for patterns in [[0, 0, 0], [1, 2, 3], [4, 0, 4], [7, 6, 5], [3, 7, 1]] {
        all_lists(3, 5, &patterns);
        all_lists(3, 5, &[[6, 2, 5], patterns].concat());
    }
}

/// All lists up to that length of the last so many cameras.
fn all_lists(last: usize, longest: u32, patterns: &[u8]) {
    let first = (patterns.len() - last) as u8;
    for frames in 0..=longest {
        for code in 0..last.pow(frames) {
            let camera = |place| first + (code / last.pow(place) % last) as u8;
            let cameras: Vec<u8> = (0..frames).map(camera).collect();
            let cards = counted(patterns, &cameras);
            assert_eq!(hub(patterns, &cameras), Ok(cards), "{patterns:?}, {cameras:?}");
        }
    }
}

/// The cards by a counter for each camera.
fn counted(patterns: &[u8], cameras: &[u8]) -> Vec<u8> {
    let mut taken = [0; 6];
    let mut card = |&camera: &u8| {
        let row = PATTERNS[usize::from(patterns[usize::from(camera)])];
        let place = taken[usize::from(camera)] % 8;
        taken[usize::from(camera)] += 1;
        row[place]
    };
    cameras.iter().map(&mut card).collect()
}

// ---- Sizes and buffers ----

/// An empty list is good: no cards, and the buffer stays as it is.
#[test]
fn no_frames() {
    for cameras in 1..=6 {
        for places in [0, 1, 8, ROOM] {
            assert_eq!(hub_in(places, &vec![7; cameras], &[]), Ok(vec![]), "{cameras} cameras");
        }
    }
}

/// A buffer of as many places as the list has frames takes the cards, a larger one keeps its later places, and one place
/// less gives 10.
#[test]
fn buffers() {
    let patterns = [0, 5, 3];
    for frames in [1, 2, 7, 8, 9, 16, 17, 100, 255, 256, 257, 4095, 4096] {
        let cameras = in_turns(3, frames);
        let cards = Ok(counted(&patterns, &cameras));
        for places in [frames, frames + 1, frames + 7, frames + 8, frames + 500] {
            assert_eq!(
                hub_in(places, &patterns, &cameras),
                cards,
                "{places} places for {frames}"
            );
        }
        for places in [frames - 1, frames / 2, 0] {
            assert_eq!(
                hub_in(places, &patterns, &cameras),
                Err(10),
                "{places} places for {frames}"
            );
        }
    }
}

// ---- The grounds for a refusal ----

/// "20 for a camera count not 1 to 6": none, seven and more, also where the count's last 8 bits are 1 to 6.
#[test]
fn camera_counts() {
    for count in 1..=6 {
        let cards = hub(&vec![0; count], &in_turns(count, count));
        assert_eq!(cards, Ok(vec![0; count]), "{count} cameras");
    }
    for count in [0, 7, 8, 9, 255, 256, 257, 262, 263, 65_536, 65_542] {
        for cameras in [&[][..], &[0], &[0, 0, 0]] {
            assert_eq!(hub(&vec![0; count], cameras), Err(20), "{count} cameras");
        }
    }
}

/// "Or a pattern not 0 to 7": every number, of every camera, whether the camera has frames or not.
#[test]
fn pattern_numbers() {
    for count in 1..=6 {
        for camera in 0..count {
            for number in 0..=255_u8 {
                let mut patterns = vec![0; count];
                patterns[camera] = number;
                for cameras in [&[][..], &[0], &[camera as u8]] {
                    let found = hub(&patterns, cameras).map(|cards| cards.len());
                    let expected = if number < 8 { Ok(cameras.len()) } else { Err(20) };
                    assert_eq!(found, expected, "pattern {number} of camera {camera}");
                }
            }
        }
    }
}

/// "Lists over 4,096 give 6", also where the length's last 16 bits are a good one.
#[test]
fn list_lengths() {
    for frames in [0, 1, 4095, 4096] {
        let found = hub(&[0], &vec![0; frames]).map(|cards| cards.len());
        assert_eq!(found, Ok(frames));
    }
    for frames in [4097, 4098, 8192, 65_535, 65_536, 65_537, 65_536 + 4096, 70_000] {
        assert_eq!(hub_in(frames, &[0], &vec![0; frames]), Err(6), "{frames} frames");
    }
}

/// "21 for a camera number not below the count": every number, at the first frame, between and at the last. Beside 21 nothing
/// is written, also where the last frame alone is at fault.
#[test]
fn camera_numbers() {
    for count in 1..=6 {
        let patterns = vec![7; count];
        for frames in [1, 2, 3, 8, 16, 17, 100] {
            for position in [0, frames / 2, frames - 1] {
                for number in 0..=255_u8 {
                    let mut cameras = vec![0; frames];
                    cameras[position] = number;
                    let expected = if usize::from(number) < count {
                        Ok(counted(&patterns, &cameras))
                    } else {
                        Err(21)
                    };
                    let found = hub(&patterns, &cameras);
                    assert_eq!(found, expected, "camera {number} of {count} at {position}");
                }
            }
        }
    }
    let mut longest = vec![0; ROOM];
    longest[ROOM - 1] = 1;
    assert_eq!(hub(&[0], &longest), Err(21));
    assert_eq!(
        hub(&[0, 0], &longest).map(|cards| cards[ROOM - 2..].to_vec()),
        Ok(vec![6, 0])
    );
}

/// "20 [...] first of all; 21 [...] after 6", and "a short buffer 10 and last": every two grounds, every three, and all.
#[test]
fn order_of_20_6_21_and_10() {
    let good: &[u8] = &[0, 7];
    let [seven, no_pattern]: [&[u8]; 2] = [&[0; 7], &[0, 8]];
    let list = |frames: usize, last: u8| [vec![1; frames - 1], vec![last]].concat();
    for bad in [seven, no_pattern] {
        assert_eq!(hub(bad, &list(3, 1)), Err(20));
        for (frames, last, places) in [
            (4097, 1, 4097),
            (3, 7, ROOM),
            (3, 1, 2),
            (4097, 7, 4097),
            (4097, 1, ROOM),
            (3, 7, 2),
            (4097, 7, ROOM),
        ] {
            let found = hub_in(places, bad, &list(frames, last));
            assert_eq!(found, Err(20), "{frames} frames, the last {last}, {places} places");
        }
    }
    for (frames, last, places) in [(4097, 2, 4097), (4097, 1, ROOM), (4097, 1, 0), (4097, 255, ROOM)] {
        let found = hub_in(places, good, &list(frames, last));
        assert_eq!(found, Err(6), "the last {last}, {places} places");
    }
    for (frames, last, places) in [(3, 2, 2), (3, 2, 0), (1, 2, 0), (4096, 255, ROOM - 1)] {
        let found = hub_in(places, good, &list(frames, last));
        assert_eq!(found, Err(21), "{frames} frames, the last {last}, {places} places");
    }
    assert_eq!(hub_in(2, good, &list(3, 1)), Err(10));
    assert_eq!(hub_in(0, &[], &[]), Err(20));
    assert_eq!(hub_in(0, &[], &[0]), Err(20));
}
