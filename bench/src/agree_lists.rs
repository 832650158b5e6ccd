//! That product and plain make the same files of lists of numbers, and refuse the same lists.

use crate::calls::{Calls, Plain, Product};
use crate::files::{Files, ALDER};
use crate::random::Random;

/// What every byte and number holds before a call, so that one left alone is seen.
const UNWRITTEN_BYTE: u8 = 0xA5;
const UNWRITTEN: u64 = 0x5EED_5EED_5EED_5EED;

/// A buffer longer than the largest file.
const ROOM: usize = 2_048;

/// Park Alder's numbers (01, "Park Alder, and its neighbours").
#[rustfmt::skip]
const ALDER_NUMBERS: [u32; 39] = [
    4, 2, 3, 500_000, 200,
    400, 1, 50, 0, 0,
    100, 0, 0, 0, 100,
    0, 1, 1, 669, 40_000, 30_000, 0, 0,
    1, 2, 1, 700, 10_000, 4_000, 0, 0,
    0, 2, 0, 669, 5_000, 0, 0, 0,
];

/// Numbers too large for their fields, though most would pass if cut to them: where each stands in
/// Alder's list, and the refusal with its place.
const TOO_LARGE: [(usize, u32, (u64, u64)); 13] = [
    (0, 260, (4, 0)),
    (1, 257, (5, 0)),
    (1, 258, (5, 0)),
    (2, 259, (6, 0)),
    (4, 65_736, (8, 0)),
    (6, 257, (11, 1)),
    (7, 65_586, (12, 1)),
    (14, 65_636, (13, 2)),
    (23, 257, (14, 2)),
    (24, 258, (14, 2)),
    (17, 257, (15, 1)),
    (17, 263, (15, 1)),
    (18, 65_537, (16, 1)),
];

/// All that the call leaves: its number, its place, the size, and the buffer.
#[derive(Debug, PartialEq)]
struct Outcome {
    number: u64,
    place: u64,
    size: u64,
    buffer: Vec<u8>,
}

fn encoded<C: Calls>(numbers: &[u32], buffer_len: usize) -> Outcome {
    let (mut place, mut size) = (UNWRITTEN, UNWRITTEN);
    let mut buffer = vec![UNWRITTEN_BYTE; ROOM];
    let number = C::encode(numbers, &mut buffer[..buffer_len], &mut place, &mut size);
    Outcome { number, place, size, buffer }
}

/// What a call leaves that makes this file.
fn made(file: &[u8]) -> Outcome {
    let mut buffer = file.to_vec();
    buffer.resize(ROOM, UNWRITTEN_BYTE);
    Outcome { number: 0, place: 0, size: file.len() as u64, buffer }
}

/// What a call leaves that refuses.
fn refused(number: u64, place: u64) -> Outcome {
    Outcome { number, place, size: 0, buffer: vec![UNWRITTEN_BYTE; ROOM] }
}

/// Panics unless both make each file of a set from its numbers, and leave the same for its list
/// with a number changed, with three changed, cut short, and a number too long; and for the first
/// list with a higher bit added to each number in turn. Gives the numbers that were answered, as
/// bits.
pub fn assert_agree(files: &Files, seed: u64) -> u32 {
    let mut random = Random::new(seed);
    let mut numbers = 0;
    for (file, list) in files.iter().zip(files.lists()) {
        assert_eq!(encoded::<Plain>(list, file.len()), made(file), "{list:?}");
        let cut = random.between(0, list.len() as u64 - 1) as usize;
        let longer = [list, &[0]].concat();
        for list in [list, &list[..cut], &longer] {
            numbers |= assert_agree_on(list, file.len());
        }
        for changes in [1, 3] {
            let mut damaged = list.to_vec();
            for _ in 0..changes {
                damage(&mut random, &mut damaged);
            }
            numbers |= assert_agree_on(&damaged, file.len());
        }
    }
    for (file, list) in files.iter().zip(files.lists()).take(1) {
        for index in 0..list.len() {
            for more in [1 << 8, 1 << 16, 1 << 31] {
                let mut damaged = list.to_vec();
                damaged[index] += more;
                numbers |= assert_agree_on(&damaged, file.len());
            }
        }
    }
    numbers
}

/// Changes a number to one that some rule minds, or that only its field would not hold.
fn damage(random: &mut Random, list: &mut [u32]) {
    let index = random.between(0, list.len() as u64 - 1) as usize;
    let any = random.next() as u32;
    let [wider, widest] = [1 << 8, 1 << 16].map(|more| list[index].wrapping_add(more));
    list[index] = random.pick(&[0, 1, 2, 3, 4, 8, 17, 65, 255, 20_001, wider, widest, any]);
}

/// A buffer of each length that matters.
fn assert_agree_on(list: &[u32], file_len: usize) -> u32 {
    let mut numbers = 0;
    for buffer_len in [0, file_len - 1, file_len, ROOM] {
        let plain = encoded::<Plain>(list, buffer_len);
        assert_eq!(encoded::<Product>(list, buffer_len), plain, "encode {list:?}");
        if plain.number != 0 {
            assert_eq!(plain, refused(plain.number, plain.place), "left as it was");
        }
        numbers |= 1 << plain.number;
    }
    numbers
}

/// Panics unless both make Park Alder's file from its numbers, want room for all of it, and refuse
/// its list cut short, with numbers that are too large for their fields, or with a mark or a flag
/// of version 2.
pub fn assert_alder() {
    let assert_left = |numbers: &[u32], buffer_len: usize, left: Outcome| {
        assert_eq!(encoded::<Plain>(numbers, buffer_len), left, "plain {numbers:?}");
        assert_eq!(encoded::<Product>(numbers, buffer_len), left, "product {numbers:?}");
    };
    assert_left(&ALDER_NUMBERS, ALDER.len(), made(&ALDER));
    assert_left(&ALDER_NUMBERS, ALDER.len() - 1, refused(22, 0));
    assert_left(&ALDER_NUMBERS[..38], ALDER.len(), refused(9, 0));
    for (index, number, (refusal, place)) in TOO_LARGE {
        let mut numbers = ALDER_NUMBERS;
        numbers[index] = number;
        assert_left(&numbers, ROOM, refused(refusal, place));
    }
    for mark in 8..16 {
        let mut numbers = ALDER_NUMBERS;
        numbers[17] = mark;
        assert_left(&numbers, ROOM, refused(15, 1));
    }
    for flag in 2..=4 {
        let mut numbers = ALDER_NUMBERS;
        numbers[6] = flag;
        assert_left(&numbers, ROOM, refused(11, 1));
    }
}
