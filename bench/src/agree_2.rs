//! That product and plain bill and refuse files of version 2 as worked out by hand.

use crate::agree::{assert_agree_on, checked, park_billed, ROOM};
use crate::calls::Plain;
use crate::files::ALDER;
use crate::files_2::ALDER_2;
use crate::records::HEADER_BYTES;

/// Bytes of a file: where each stands, and what it becomes.
type Changes = &'static [(usize, u8)];

/// Bytes of Alder's file of version 2 that break rules, and the refusal with its place. The lines
/// begin at bytes 37, 62 and 87, the generator at 112; the sites' flags are bytes 19 and 30.
const REFUSED: [(Changes, (u64, u64)); 35] = [
    (&[(3, 3)], (3, 0)),
    (&[(4, 1)], (3, 0)),
    (&[(3, 1)], (9, 0)),
    // 33 generators, after a wrong t and before the length and the records.
    (&[(13, 255), (14, 33)], (8, 0)),
    (&[(14, 33)], (25, 0)),
    (&[(14, 255), (19, 2)], (25, 0)),
    (&[(14, 0)], (9, 0)),
    (&[(14, 32)], (9, 0)),
    // Flags; without devices Q, and the generator.
    (&[(19, 4)], (11, 1)),
    (&[(30, 255)], (11, 2)),
    (&[(19, 2)], (12, 1)),
    (&[(30, 2), (33, 1)], (12, 2)),
    (&[(19, 2), (20, 0)], (26, 1)),
    (&[(30, 2), (112, 2)], (26, 1)),
    (&[(19, 0), (20, 0)], (26, 1)),
    // Marks.
    (&[(39, 4)], (15, 1)),
    (&[(64, 12)], (15, 2)),
    (&[(89, 13)], (15, 3)),
    (&[(39, 16)], (15, 1)),
    (&[(39, 24)], (15, 1)),
    // Active generation above its most, or without its meter.
    (&[(61, 1)], (17, 1)),
    (&[(89, 0), (111, 1)], (17, 3)),
    (&[(64, 1)], (18, 2)),
    (&[(89, 0)], (18, 3)),
    // The generator's site: the network, none, or one without devices.
    (&[(112, 0)], (26, 1)),
    (&[(112, 3)], (26, 1)),
    (&[(112, 33)], (26, 1)),
    (&[(112, 255)], (26, 1)),
    (&[(112, 2)], (26, 1)),
    // Its reading.
    (&[(116, 1)], (27, 1)),
    (&[(112, 2), (116, 1)], (26, 1)),
    // After the lines, and before the site without an input.
    (&[(89, 4), (112, 0)], (15, 3)),
    (&[(63, 0), (88, 1)], (19, 2)),
    (&[(63, 0), (88, 1), (112, 0)], (26, 1)),
    (&[(63, 0), (88, 1), (116, 1)], (27, 1)),
];

/// Bytes of the same file that are accepted, with tg and the surcharge of site 1. Its other numbers
/// but the total, and all those of site 2, are as in version 1.
const BILLED: [(Changes, (u64, u64)); 6] = [
    // 40,000 - 2,000 - 10,000 + 1,000 + 11,000 kWh.
    (&[], (650, 138_160)),
    // A generator that reads 0: 29,000 kWh.
    (&[(113, 0), (114, 0)], (897, 361_469)),
    // A transit without a meter of active generation: 39,000 kWh.
    (&[(64, 1), (83, 0), (84, 0)], (667, 150_153)),
    // Below 0: active generation of 67,536 kWh at the input.
    (&[(60, 1)], (800, 261_209)),
    // Cut once alone: 40,000 - 67,536 - 10,000 + 1,000 + 76,536 kWh.
    (&[(60, 1), (115, 1)], (650, 138_160)),
    // Active generation of 5,000 kWh more where no generator is.
    (&[(108, 0x10), (109, 0x27)], (650, 138_160)),
];

/// Panics unless both leave these numbers and refusals, and the bill of version 1 for Alder's file
/// without its generator; unless both bill stations, and refuse them in version 1; unless both count
/// a second generator; and unless both refuse a file that is too short, and mark 8 in version 1.
pub fn assert_alder() {
    for (changes, (tangent, surcharge)) in BILLED {
        assert_billed(&changed(&ALDER_2, changes), tangent, surcharge);
    }
    for (changes, refusal) in REFUSED {
        assert_refused(&changed(&ALDER_2, changes), refusal);
    }
    assert_billed(&changed(&ALDER_2[..112], &[(14, 0)]), 867, 328_725);
    assert_stations();

    // 40,000 - 2,000 - 10,000 + 1,000 + 11,000 + 12,000 kWh.
    let two = changed(&[&ALDER_2[..], &[1, 0xE0, 0x2E, 0, 0]].concat(), &[(14, 2)]);
    assert_billed(&two, 500, 53_969);
    assert_refused(&changed(&two, &[(117, 2)]), (26, 2));
    assert_refused(&changed(&two, &[(121, 1)]), (27, 2));
    assert_refused(&changed(&two, &[(116, 1), (117, 2)]), (27, 1));

    assert_refused(&ALDER_2[..HEADER_BYTES - 1], (1, 0));
    assert_refused(&ALDER_2[..HEADER_BYTES], (9, 0));
    assert_refused(&changed(&ALDER_2[..HEADER_BYTES], &[(13, 255)]), (8, 0));
    assert_refused(&ALDER_2[..HEADER_BYTES + 1], (9, 0));
    for mark in 8..16 {
        assert_refused(&changed(&ALDER, &[(38, mark)]), (15, 1));
    }
}

fn changed(file: &[u8], changes: &[(usize, u8)]) -> Vec<u8> {
    let mut file = file.to_vec();
    for (place, byte) in changes {
        file[*place] = *byte;
    }
    file
}

fn assert_billed(file: &[u8], tangent: u64, surcharge: u64) {
    let total = 863_500 + 334_500 + surcharge;
    let printed = [
        [26_000, tangent, 17_270_000, 0, 100_000, 863_500, 334_500, surcharge, 0, total, 0],
        [8_000, 533, 5_476_000, 0, 0, 273_800, 0, 21_928, 27_380, 268_348, 0],
    ];
    assert_agree_on(file, 2);
    assert_eq!(park_billed::<Plain>(file, ROOM).numbers[..22], printed.concat(), "{file:?}");
}

/// Both sites as stations, the first with devices: their energies are the same, and of their money
/// Pc is left, and the discount on it.
fn assert_stations() {
    let stations = changed(&ALDER_2, &[(19, 3), (30, 2)]);
    let printed = [
        [26_000, 650, 17_270_000, 0, 100_000, 863_500, 0, 0, 0, 863_500, 0],
        [8_000, 533, 5_476_000, 0, 0, 273_800, 0, 0, 27_380, 246_420, 0],
    ];
    assert_agree_on(&stations, 2);
    assert_eq!(park_billed::<Plain>(&stations, ROOM).numbers[..22], printed.concat());
    for flag in 2..=3 {
        assert_refused(&changed(&ALDER, &[(18, flag)]), (11, 1));
    }
}

fn assert_refused(file: &[u8], refusal: (u64, u64)) {
    assert_agree_on(file, 2);
    let checked = checked::<Plain>(file);
    assert_eq!((checked.number, checked.place), refusal, "{file:?}");
}
