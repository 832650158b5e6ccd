//! Named files of version 2 that are refused or only just accepted (02, R-5). Every expected answer is
//! written by hand from the papers, and is held against the calculator as well as against the product.

use crate::compare::Tester;
use crate::expect::{expect_check, expect_reply};
use crate::generator_parks::{
    alder_with, largest_with_generators, small_second, ALDER_GENERATOR_FILE,
};
use crate::parks::ALDER_FILE;

/// Bytes of Alder with its generator set to others; then the refusal, none if accepted. Alder's
/// sites begin at 15 and 26, its lines at 37, 62 and 87, its generator at 112.
type Named = (&'static str, &'static [(usize, u8)], Option<(u64, u64)>);

const NAMED: [Named; 45] = [
    ("as it is", &[], None),
    ("version 0", &[(3, 0)], Some((3, 0))),
    ("version 1", &[(3, 1)], Some((9, 0))),
    ("version 3", &[(3, 3)], Some((3, 0))),
    ("version 258", &[(4, 1)], Some((3, 0))),
    ("0 generators", &[(14, 0)], Some((9, 0))),
    ("2 generators", &[(14, 2)], Some((9, 0))),
    ("32 generators", &[(14, 32)], Some((9, 0))),
    ("33 generators", &[(14, 33)], Some((25, 0))),
    ("255 generators", &[(14, 255)], Some((25, 0))),
    ("33 generators, version 3", &[(14, 33), (3, 3)], Some((3, 0))),
    ("33 generators, month 13", &[(14, 33), (5, 13)], Some((4, 0))),
    ("33 generators, t 721", &[(14, 33), (12, 0xD1), (13, 2)], Some((8, 0))),
    ("33 generators, power 0", &[(14, 33), (15, 0), (16, 0)], Some((25, 0))),
    ("2 generators, power 0", &[(14, 2), (15, 0), (16, 0)], Some((9, 0))),
    ("mark 8 on line 1, WQ 30,000", &[(39, 8)], Some((18, 1))),
    ("mark 9 on line 1", &[(39, 9)], None),
    ("mark 8 on line 3", &[(89, 8)], None),
    ("mark 15 on line 3", &[(89, 15)], None),
    ("mark 14 on line 3", &[(89, 14)], None),
    ("mark 12 on line 3", &[(89, 12)], Some((15, 3))),
    ("mark 13 on line 3", &[(89, 13)], Some((15, 3))),
    ("mark 4 on line 3", &[(89, 4)], Some((15, 3))),
    ("mark 16 on line 3", &[(89, 16)], Some((15, 3))),
    ("mark 24 on line 3", &[(89, 24)], Some((15, 3))),
    ("line 3 generates without its meter", &[(108, 1)], Some((18, 3))),
    ("line 3 generates 65,536 without its meter", &[(110, 1)], Some((18, 3))),
    ("line 3 generates 1", &[(89, 8), (108, 1)], None),
    ("line 3 generates 10,000,000", &[(89, 8), (108, 0x80), (109, 0x96), (110, 0x98)], None),
    ("10,000,001", &[(89, 8), (108, 0x81), (109, 0x96), (110, 0x98)], Some((17, 3))),
    ("10,000,001, no meter", &[(108, 0x81), (109, 0x96), (110, 0x98)], Some((17, 3))),
    ("generator at site 0", &[(112, 0)], Some((26, 1))),
    ("generator at site 2, flag 0", &[(112, 2)], Some((26, 1))),
    ("generator at site 3", &[(112, 3)], Some((26, 1))),
    ("generator at site 255", &[(112, 255)], Some((26, 1))),
    ("site 1 without devices", &[(19, 0), (20, 0)], Some((26, 1))),
    ("generator 10,000,000", &[(113, 0x80), (114, 0x96), (115, 0x98)], None),
    ("generator 10,000,001", &[(113, 0x81), (114, 0x96), (115, 0x98)], Some((27, 1))),
    ("generator 16,777,216", &[(113, 0), (114, 0), (116, 1)], Some((27, 1))),
    ("at site 0, too high", &[(112, 0), (116, 255)], Some((26, 1))),
    ("site 2 with h 65,380, at site 0", &[(36, 255), (112, 0)], Some((13, 2))),
    ("line 3 with D 157, at site 0", &[(91, 0), (112, 0)], Some((26, 1))),
    ("line 3 with D 65,437, at site 0", &[(91, 255), (112, 0)], Some((16, 3))),
    ("site 1 unfed", &[(38, 2)], Some((19, 1))),
    ("site 1 unfed, at site 0", &[(38, 2), (112, 0)], Some((26, 1))),
];

/// Runs the named files.
pub fn run(tester: &mut Tester) {
    for (name, changes, refusal) in NAMED {
        let mut file = ALDER_GENERATOR_FILE;
        for (offset, byte) in changes {
            file[*offset] = *byte;
        }
        expect_reply(tester, &format!("Alder with a generator, {name}"), &file, refusal);
    }
    lengths(tester);
    several(tester);
    counts(tester);
    largest(tester);
}

fn lengths(tester: &mut Tester) {
    let mut longer = ALDER_GENERATOR_FILE.to_vec();
    longer.extend([0; 10]);
    for length in 0..longer.len() {
        let refusal = match length {
            0..=13 => Some((1, 0)),
            117 => None,
            _ => Some((9, 0)),
        };
        let name = format!("Alder with a generator, {length} bytes");
        expect_reply(tester, &name, &longer[..length], refusal);
    }
    // What comes before 9, and what does not, in a file that ends before its number of generators.
    let cases = [((5, 4), 9), ((3, 3), 3), ((5, 13), 4), ((6, 17), 5), ((7, 0), 6), ((13, 3), 8)];
    for ((offset, byte), number) in cases {
        for length in [14, 15] {
            let mut file = ALDER_GENERATOR_FILE[..length].to_vec();
            file[offset] = byte;
            let name = format!("{length} bytes, byte {offset} set to {byte}");
            expect_reply(tester, &name, &file, Some((number, 0)));
        }
    }
    // Alder's own file as version 2: its byte 14 is 144. Then 1, as if it had one generator.
    let mut file = ALDER_FILE;
    file[3] = 2;
    expect_reply(tester, "Alder with version 2", &file, Some((25, 0)));
    file[14] = 1;
    expect_reply(tester, "Alder with version 2, power 257", &file, Some((9, 0)));
}

/// Generators of Alder, and the refusal.
type Several = (&'static [[u32; 2]], Option<(u64, u64)>);

/// Several generators, each with its own fault or none; site 2 has no devices.
fn several(tester: &mut Tester) {
    let cases: [Several; 8] = [
        (&[[1, 10_000_000], [1, 0]], None),
        (&[[1, 10_000_001], [0, 0]], Some((27, 1))),
        (&[[1, 10_000_000], [0, 10_000_001]], Some((26, 2))),
        (&[[1, 0], [1, 10_000_001]], Some((27, 2))),
        (&[[2, 0], [1, 10_000_001]], Some((26, 1))),
        (&[[3, 10_000_001], [2, 0]], Some((26, 1))),
        (&[[1, 0], [1, 0], [2, 0], [0, 0]], Some((26, 3))),
        (&[[1, 0], [1, 0], [1, 0], [1, u32::MAX]], Some((27, 4))),
    ];
    for (generators, refusal) in cases {
        let name = format!("Alder, generators {generators:?}");
        expect_reply(tester, &name, &alder_with(generators).to_file(), refusal);
    }
}

/// Every number of generators that a byte can state, with just as many records.
fn counts(tester: &mut Tester) {
    let line = [0, 1, 1, 10, 20_000, 10_000, 0, 0, 0];
    for count in 0..=255 {
        let generators = vec![[1, 100]; count];
        let file = small_second(1, &[[16, 1, 0, 0, 0]], &[line], &generators).to_file();
        let refusal = (count > 32).then_some((25, 0));
        expect_check(tester, &format!("{count} generators"), &file, refusal);
    }
}

fn largest(tester: &mut Tester) {
    let mut file = largest_with_generators().to_file();
    tester.same(format_args!("The longest file"), 1_951, file.len());
    expect_reply(tester, "The largest park with generators", &file, None);
    file.push(0);
    expect_reply(tester, "The same, one byte more", &file, Some((9, 0)));
    file.truncate(1_950);
    expect_reply(tester, "The same, one byte less", &file, Some((9, 0)));
}
