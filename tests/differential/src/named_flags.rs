//! Named flags (02, R-8), in files of both versions and in lists: which are refused, and by which rule
//! first. Every expected answer is written by hand from the papers, and is held against the calculator
//! as well as against the product.

use crate::compare::Tester;
use crate::expect::{expect_check, expect_reply};
use crate::generator_parks::{second, small_second, ALDER_GENERATOR_FILE};
use crate::named_lists::{expect_refusal, ALDER_LIST};
use crate::parks::{small_park, ALDER_FILE};

/// Bytes of Alder with its generator set to others; then the refusal, none if accepted. The flags are
/// at 19 and 30, each with Q, P and h behind it; the generator is at 112.
type Named = (&'static str, &'static [(usize, u8)], Option<(u64, u64)>);

const NAMED: [Named; 44] = [
    ("flag 3, Q 50, a generator", &[(19, 3)], None),
    ("flag 2, Q 50", &[(19, 2)], Some((12, 1))),
    ("flag 2, Q 1", &[(19, 2), (20, 1)], Some((12, 1))),
    ("flag 2, P 1", &[(19, 2), (20, 0), (22, 1)], Some((12, 1))),
    ("flag 2, Q and P 1", &[(19, 2), (20, 1), (22, 1)], Some((12, 1))),
    ("flag 2, Q 0, a generator", &[(19, 2), (20, 0)], Some((26, 1))),
    ("flag 0, Q 0, a generator", &[(19, 0), (20, 0)], Some((26, 1))),
    ("flag 3, Q 0, a generator", &[(19, 3), (20, 0)], None),
    ("flag 3, Q 20,000", &[(19, 3), (20, 0x20), (21, 0x4E)], None),
    ("flag 3, Q 20,001", &[(19, 3), (20, 0x21), (21, 0x4E)], Some((12, 1))),
    ("flag 3, P 20,001", &[(19, 3), (22, 0x21), (23, 0x4E)], Some((12, 1))),
    ("flag 4", &[(19, 4)], Some((11, 1))),
    ("flag 5", &[(19, 5)], Some((11, 1))),
    ("flag 6", &[(19, 6)], Some((11, 1))),
    ("flag 7", &[(19, 7)], Some((11, 1))),
    ("flag 130", &[(19, 130)], Some((11, 1))),
    ("flag 255", &[(19, 255)], Some((11, 1))),
    ("site 2 with flag 1", &[(30, 1)], None),
    ("site 2 with flag 2", &[(30, 2)], None),
    ("site 2 with flag 3", &[(30, 3)], None),
    ("site 2 with flag 4", &[(30, 4)], Some((11, 2))),
    ("site 2 with flag 2, Q 1", &[(30, 2), (31, 1)], Some((12, 2))),
    ("site 2 with flag 2, Q 256", &[(30, 2), (32, 1)], Some((12, 2))),
    ("site 2 with flag 2, P 1", &[(30, 2), (33, 1)], Some((12, 2))),
    ("site 2 with flag 2, P 256", &[(30, 2), (34, 1)], Some((12, 2))),
    ("site 2 with flag 3, Q and P 1", &[(30, 3), (31, 1), (33, 1)], None),
    ("the generator at site 2, flag 2", &[(30, 2), (112, 2)], Some((26, 1))),
    ("the generator at site 2, flag 3", &[(30, 3), (112, 2)], None),
    ("both stations, flags 3", &[(19, 3), (30, 3)], None),
    ("both stations, flags 3 and 2", &[(19, 3), (30, 2)], None),
    // What comes before, and what after.
    ("power 0, flag 4", &[(15, 0), (16, 0), (19, 4)], Some((10, 1))),
    ("power 0, flag 2, Q 50", &[(15, 0), (16, 0), (19, 2)], Some((10, 1))),
    ("flag 4, Q 0, a generator", &[(19, 4), (20, 0)], Some((11, 1))),
    ("site 2 with flag 4, Q 1", &[(30, 4), (31, 1)], Some((11, 2))),
    ("site 2 with flag 2, Q 1, h 65,380", &[(30, 2), (31, 1), (36, 255)], Some((12, 2))),
    ("site 2 with flag 2, h 65,380", &[(30, 2), (36, 255)], Some((13, 2))),
    ("flag 4, site 2 with flag 2, Q 1", &[(19, 4), (30, 2), (31, 1)], Some((11, 1))),
    ("flag 2, Q 50, site 2 with flag 4", &[(19, 2), (30, 4)], Some((12, 1))),
    ("flag 2, Q 0, site 2 with flag 4", &[(19, 2), (20, 0), (30, 4)], Some((11, 2))),
    ("flag 2, Q 0, line 3 with D 65,437", &[(19, 2), (20, 0), (91, 255)], Some((16, 3))),
    ("flag 2, Q 0, reading too high", &[(19, 2), (20, 0), (116, 255)], Some((26, 1))),
    ("flag 3, reading too high", &[(19, 3), (116, 255)], Some((27, 1))),
    ("flag 2, Q 0, unfed", &[(19, 2), (20, 0), (38, 2)], Some((26, 1))),
    ("flag 3, unfed", &[(19, 3), (38, 2)], Some((19, 1))),
];

/// The flags that may be, each with whether there are devices.
const LISTED: [(u32, bool); 4] = [(0, false), (1, true), (2, false), (3, true)];

/// Runs the named flags of files.
pub fn files(tester: &mut Tester) {
    for (name, changes, refusal) in NAMED {
        let mut file = ALDER_GENERATOR_FILE;
        for (offset, byte) in changes {
            file[*offset] = *byte;
        }
        expect_reply(tester, &format!("Alder with a generator, {name}"), &file, refusal);
    }
    every_flag(tester);
    several(tester);
    // In version 1 the flags are at 18 and 29.
    for flag in [2, 3, 4, 5, 255] {
        for (offset, place) in [(18, 1), (29, 2)] {
            let mut file = ALDER_FILE;
            file[offset] = flag;
            let name = format!("Alder, site {place} with flag {flag}");
            expect_reply(tester, &name, &file, Some((11, place)));
        }
    }
}

/// Every flag of a byte in both versions, without devices, with them, and with a generator.
fn every_flag(tester: &mut Tester) {
    for flag in 0..=255 {
        let listed = LISTED.iter().find(|(listed, _)| *listed == flag);
        let lines = [1, 2].map(|to| [0, to, 3, 1_000, 2_000, 3_000, 4_000, 0]);
        for compensation in [0, 1] {
            let sites = [[16, 1, 0, 0, 0], [16, flag, compensation, 0, 0]];
            let park = small_park(1_000_000, &sites, &lines);
            let of_devices = match listed {
                None => Some((11, 2)),
                Some((_, false)) if compensation != 0 => Some((12, 2)),
                _ => None,
            };
            let name = format!("flag {flag}, Q {compensation}");
            let of_first = if flag > 1 { Some((11, 2)) } else { of_devices };
            expect_check(tester, &format!("{name}, version 1"), &park.to_file(), of_first);
            let file = second(park.clone(), &[]).to_file();
            expect_check(tester, &format!("{name}, version 2"), &file, of_devices);
            let of_generator = match listed {
                Some((_, false)) => Some((26, 2)),
                _ => None,
            };
            let file = second(park, &[[1, 5], [2, 5]]).to_file();
            let refusal = of_devices.or(of_generator);
            expect_check(tester, &format!("{name}, version 2, a generator"), &file, refusal);
        }
    }
}

/// Generators of three sites, and the refusal.
type Several = (&'static [[u32; 2]], Option<(u64, u64)>);

/// Several generators at sites with flags 3, 2 and 1.
fn several(tester: &mut Tester) {
    let cases: [Several; 7] = [
        (&[[1, 5], [3, 5]], None),
        (&[[1, 5], [3, 5], [2, 5]], Some((26, 3))),
        (&[[2, 0]], Some((26, 1))),
        (&[[1, 0], [2, 10_000_001]], Some((26, 2))),
        (&[[1, 10_000_001], [2, 0]], Some((27, 1))),
        (&[[2, 0], [1, 10_000_001]], Some((26, 1))),
        (&[[1, 10_000_000], [1, 0], [3, 0], [1, 10_000_001]], Some((27, 4))),
    ];
    let sites = [3, 2, 1].map(|flag| [16, flag, 0, 0, 0]);
    let lines = [1, 2, 3].map(|to| [0, to, 1, 1_000, 2_000, 3_000, 0, 0, 0]);
    for (generators, refusal) in cases {
        let file = small_second(1_000_000, &sites, &lines, generators).to_file();
        expect_reply(tester, &format!("flags 3, 2, 1, {generators:?}"), &file, refusal);
    }
}

/// Runs the named flags of lists: Alder's are at 6 and 11, Q of site 1, which is 50, at 7.
pub fn lists(tester: &mut Tester) {
    let wide = [258, 259, 65_538, 65_539, 0x8000_0002, 0xFFFF_FF03];
    for flag in [2, 3, 4, 5, 6, 7, 255].into_iter().chain(wide) {
        for (place, site) in [(6, 1), (11, 2)] {
            for (compensation, length) in [(50, 2_000), (0, 2_000), (50, 0)] {
                let mut numbers = ALDER_LIST;
                (numbers[place], numbers[7]) = (flag, compensation);
                let name = format!("site {site} with flag {flag}, Q of site 1 {compensation}");
                expect_refusal(tester, &name, &numbers, length, (11, site));
            }
        }
    }
}
