//! Named meter marks in version 2 (02, R-5): every mark of a byte on each line of a small park, without
//! readings, and with each of four. Which marks may be, and what they measure, is written by hand from
//! the papers, and is held against the calculator as well as against the product.

use crate::compare::Tester;
use crate::expect::expect_check;
use crate::generator_parks::small_second;

/// The marks that may be, each with whether WQ, WG, WN and the active generation have a meter.
const LISTED: [(u32, [bool; 4]); 12] = [
    (0, [false, false, false, false]),
    (1, [true, false, false, false]),
    (2, [false, true, false, false]),
    (3, [true, true, false, false]),
    (6, [false, true, true, false]),
    (7, [true, true, true, false]),
    (8, [false, false, false, true]),
    (9, [true, false, false, true]),
    (10, [false, true, false, true]),
    (11, [true, true, false, true]),
    (14, [false, true, true, true]),
    (15, [true, true, true, true]),
];

/// WQ, WG, WN and the active generation: none, then each in turn, WN with as much WG.
const READINGS: [[u32; 4]; 5] =
    [[0, 0, 0, 0], [1, 0, 0, 0], [0, 1, 0, 0], [0, 1, 1, 0], [0, 0, 0, 1]];

/// An input first and another last; in the middle a line between sites and one back to the network.
const LINES: [[u32; 9]; 4] = [
    [0, 1, 15, 700, 50_000, 30_000, 9_000, 4_000, 1_000],
    [1, 2, 11, 650, 20_000, 8_000, 2_000, 0, 3_000],
    [2, 0, 6, 600, 3_000, 0, 1_000, 500, 0],
    [0, 2, 9, 800, 10_000, 4_000, 0, 0, 500],
];

/// What a reading comes to on each line: the least, two whose lowest bytes are 0, the most.
const AMOUNTS: [u32; LINES.len()] = [1, 0x100, 0x1_0000, 10_000_000];

/// Runs the named marks of version 2.
pub fn run(tester: &mut Tester) {
    for mark in 0..=255 {
        for (index, amount) in AMOUNTS.iter().enumerate() {
            for readings in READINGS {
                compare(tester, mark, index, readings, readings.map(|reading| reading * amount));
            }
        }
    }
}

/// A park with this mark and these amounts on one of its lines.
fn compare(tester: &mut Tester, mark: u32, index: usize, readings: [u32; 4], amounts: [u32; 4]) {
    let mut lines = LINES;
    lines[index][2] = mark;
    lines[index][5..].copy_from_slice(&amounts);
    let sites = [[400, 1, 50, 20, 100]; 2];
    let park = small_second(500_000, &sites, &lines, &[[1, 6_000], [2, 0]]);
    let place = index as u64 + 1;
    let refusal = match LISTED.iter().find(|(listed, _)| *listed == mark) {
        None => Some((15, place)),
        Some((_, meters)) => {
            let unmetered = |(meter, reading): (&bool, u32)| !meter && reading != 0;
            meters.iter().zip(readings).any(unmetered).then_some((18, place))
        }
    };
    let name = format!("version 2, line {place}, mark {mark}, readings {amounts:?}");
    let file = park.to_file();
    expect_check(tester, &name, &file, refusal);
    if mark < 18 {
        tester.print(&name, &file);
    }
}
