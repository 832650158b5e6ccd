//! Named meter marks (02, R-3): every mark of a byte on each line of a small park, in a file and in
//! a list, and marks of a list that a byte would not hold; each without readings, and with each of
//! three. Which marks may be, and what they measure, is written by hand from the papers, and is
//! held against the calculator as well as against the product. Those of version 2 are in
//! named_second_marks.rs.

use crate::compare::Tester;
use crate::expect::expect_reply;
use crate::named_lists::{expect_file, expect_refusal};
use crate::named_second_marks;
use crate::park::Park;
use crate::parks::small_park;

/// The marks that may be, each with whether WQ, WG and WN have a meter.
const LISTED: [(u32, [bool; 3]); 6] = [
    (0, [false, false, false]),
    (1, [true, false, false]),
    (2, [false, true, false]),
    (3, [true, true, false]),
    (6, [false, true, true]),
    (7, [true, true, true]),
];

/// WQ, WG and WN: none, then each in turn, WN with as much WG.
const READINGS: [[u32; 3]; 4] = [[0, 0, 0], [1, 0, 0], [0, 1, 0], [0, 1, 1]];

/// An input first and another last; in the middle a line between sites and one back to the network.
const LINES: [[u32; 8]; 4] = [
    [0, 1, 7, 700, 50_000, 30_000, 9_000, 4_000],
    [1, 2, 3, 650, 20_000, 8_000, 2_000, 0],
    [2, 0, 6, 600, 3_000, 0, 1_000, 500],
    [0, 2, 1, 800, 10_000, 4_000, 0, 0],
];

/// What a reading comes to on each line: the least, two whose lowest bytes are 0, the most.
const AMOUNTS: [u32; LINES.len()] = [1, 0x100, 0x1_0000, 10_000_000];

/// A name, a park, and its refusal, none if accepted.
type Named = (String, Park, Option<(u64, u64)>);

/// The park with this mark and these readings on one of its lines.
fn named(mark: u32, index: usize, readings: [u32; 3]) -> Named {
    let mut park = small_park(500_000, &[[400, 1, 50, 20, 100]; 2], &LINES);
    let [reactive, generated, night] = readings.map(|reading| reading * AMOUNTS[index]);
    let line = &mut park.lines[index];
    line.meters = mark;
    (line.reactive, line.generated, line.night) = (reactive, generated, night);
    let place = index as u64 + 1;
    let refusal = match LISTED.iter().find(|(listed, _)| *listed == mark) {
        None => Some((15, place)),
        Some((_, meters)) => {
            let unmetered = |(meter, reading): (&bool, u32)| !meter && reading != 0;
            meters.iter().zip(readings).any(unmetered).then_some((18, place))
        }
    };
    let name = format!("line {place}, mark {mark}, WQ {reactive}, WG {generated}, WN {night}");
    (name, park, refusal)
}

/// These marks on every line, with all the readings.
fn all_named(marks: impl Iterator<Item = u32>) -> impl Iterator<Item = Named> {
    let lines = |mark| (0..LINES.len()).map(move |index| (mark, index));
    marks.flat_map(lines).flat_map(|(mark, index)| READINGS.map(|one| named(mark, index, one)))
}

/// Marks whose lowest byte is a listed one, and the largest number of all.
fn wide_marks() -> impl Iterator<Item = u32> {
    let above = [0x1_0000, 0x100_0000, 0x8000_0000, 0xFFFF_FF00];
    let marks = above.into_iter().flat_map(|above| LISTED.map(|(mark, _)| above + mark));
    marks.chain([u32::MAX])
}

/// Runs the named marks in files of either version, then in lists.
pub fn run(tester: &mut Tester) {
    for (name, park, refusal) in all_named(0..=255) {
        expect_reply(tester, &name, &park.to_file(), refusal);
    }
    named_second_marks::run(tester);
    for (name, park, refusal) in all_named((0..=600).chain(wide_marks())) {
        let (name, numbers) = (format!("list, {name}"), park.to_list());
        match refusal {
            Some(refusal) => expect_refusal(tester, &name, &numbers, 2_000, refusal),
            None => expect_file(tester, &name, &numbers, &park.to_file()),
        }
    }
}
