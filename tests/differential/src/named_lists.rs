//! Named lists (02, R-1): Alder's, numbers that only 32 bits tell from accepted ones, wrong counts
//! and buffers; other ends of lines are in named_ends.rs, flags in named_flags.rs. Every
//! expected answer is written by hand from the papers, but for the largest file, and is held against
//! the calculator as well as against the product.

use crate::calculator::{encode, Refusal};
use crate::compare::Tester;
use crate::named_ends;
use crate::named_flags;
use crate::parks::{alder, largest_park, one_line, ALDER_FILE};
use crate::product::Reply;

/// Park Alder number by number.
#[rustfmt::skip]
pub const ALDER_LIST: [u32; 39] = [
    4, 2, 3, 500_000, 200,
    400, 1, 50, 0, 0,
    100, 0, 0, 0, 100,
    0, 1, 1, 669, 40_000, 30_000, 0, 0,
    1, 2, 1, 700, 10_000, 4_000, 0, 0,
    0, 2, 0, 669, 5_000, 0, 0, 0,
];

/// Holds the refusal of a list for a buffer of this length against both; then everything about the
/// list.
pub fn expect_refusal(
    tester: &mut Tester,
    name: &str,
    numbers: &[u32],
    length: usize,
    (number, place): (u64, u64),
) {
    let mut buffer = vec![0x77; length];
    let answer = encode(numbers, length);
    tester.same(format_args!("calculator, encode"), Err(Refusal { number, place }), answer);
    let reply = tester.product.encode(numbers, &mut buffer);
    tester.same(format_args!("product, encode"), (Reply { number, place }, 0), reply);
    tester.same(format_args!("product, buffer"), vec![0x77; length], buffer);
    tester.list(name, numbers);
}

/// Holds the file made of a list against both, in a buffer three bytes longer; then everything
/// about the list, and what is printed for the file.
pub fn expect_file(tester: &mut Tester, name: &str, numbers: &[u32], file: &[u8]) {
    let mut right = file.to_vec();
    right.extend([0x77; 3]);
    let mut buffer = vec![0x77; right.len()];
    tester.same(format_args!("calculator, made"), Ok(file.to_vec()), encode(numbers, right.len()));
    let reply = tester.product.encode(numbers, &mut buffer);
    let accepted = (Reply { number: 0, place: 0 }, file.len() as u64);
    tester.same(format_args!("product, made"), accepted, reply);
    tester.same(format_args!("product, file"), right, buffer);
    tester.list(name, numbers);
    tester.print_made(name, numbers);
}

/// Alder's list with one number changed.
fn alder_with(place: usize, number: u32) -> Vec<u32> {
    let mut numbers = ALDER_LIST.to_vec();
    numbers[place] = number;
    numbers
}

/// Runs all named lists.
pub fn run(tester: &mut Tester) {
    files(tester);
    wide_headers(tester);
    wide_sites(tester);
    wide_lines(tester);
    limits(tester);
    named_ends::lists(tester);
    named_flags::lists(tester);
    counts(tester);
    orders(tester);
    buffers(tester);
}

fn files(tester: &mut Tester) {
    tester.same(format_args!("Alder's list"), &ALDER_LIST[..], &alder().to_list()[..]);
    expect_file(tester, "Alder's list", &ALDER_LIST, &ALDER_FILE);
    let smallest = [12, 1, 1, 1, 744, 16, 1, 256, 513, 1_000, 0, 1, 7, 5_000, 1, 2, 4, 3];
    #[rustfmt::skip]
    let file = [
        b'P', b'R', b'K', 1, 0, 12, 1, 1, 1, 0, 0, 0, 0xE8, 0x02,
        16, 0, 0, 0, 1, 0, 1, 1, 2, 0xE8, 0x03,
        0, 1, 7, 0x88, 0x13, 1, 0, 0, 0, 2, 0, 0, 0, 4, 0, 0, 0, 3, 0, 0, 0,
    ];
    expect_file(tester, "The smallest list", &smallest, &file);
    let largest = largest_park();
    tester.same(format_args!("The longest file"), 1_534, largest.to_file().len());
    tester.same(format_args!("The longest list"), 597, largest.to_list().len());
    expect_file(tester, "The largest list", &largest.to_list(), &largest.to_file());
}

fn wide_headers(tester: &mut Tester) {
    let place = |name: &str| ["month", "s", "n", "T", "t"].iter().position(|one| *one == name);
    let cases = [
        ("month", 260, 4),
        ("month", 65_540, 4),
        ("s", 258, 5),
        ("n", 259, 6),
        ("n", 65_539, 6),
        ("t", 65_536, 8),
        ("t", 65_736, 8),
    ];
    for (what, number, refusal) in cases {
        let numbers = alder_with(place(what).expect("a name"), number);
        expect_refusal(tester, &format!("{what} {number}"), &numbers, 2_000, (refusal, 0));
    }
    let one = one_line(500_000, 669, 2_000, 1_000).to_list();
    let wide = |place: usize, number: u32, count: usize| {
        let mut numbers = one.clone();
        numbers[place] = number;
        numbers.resize(count, 1);
        numbers
    };
    let right = one.len();
    expect_refusal(tester, "s 257", &wide(1, 257, right), 2_000, (5, 0));
    let count = 5 + 5 * 257 + 8;
    expect_refusal(tester, "s 257 of 257", &wide(1, 257, count), 2_000, (5, 0));
    expect_refusal(tester, "n 65,537", &wide(2, 65_537, right), 2_000, (6, 0));
    let count = 5 + 5 + 8 * 65_537;
    expect_refusal(tester, "n 65,537 of 65,537", &wide(2, 65_537, count), 2_000, (6, 0));
    let mut numbers = largest_park().to_list();
    numbers[2] = 320;
    expect_refusal(tester, "n 320", &numbers, 2_000, (6, 0));
}

fn wide_sites(tester: &mut Tester) {
    // Alder's sites begin at places 5 and 10.
    let cases = [
        ("flag 257", 6, 257, (11, 1)),
        ("flag 256", 11, 256, (11, 2)),
        ("Q 65,536", 12, 65_536, (12, 2)),
        ("Q 65,586", 7, 65_586, (12, 1)),
        ("P 65,536", 8, 65_536, (12, 1)),
        ("P 65,536 with flag 0", 13, 65_536, (12, 2)),
        ("h 65,537", 9, 65_537, (13, 1)),
        ("h 65,636", 14, 65_636, (13, 2)),
    ];
    for (name, place, number, refusal) in cases {
        expect_refusal(tester, name, &alder_with(place, number), 2_000, refusal);
    }
}

fn wide_lines(tester: &mut Tester) {
    // Alder's lines begin at places 15, 23 and 31.
    let cases = [
        ("from 257", 23, 257, (14, 2)),
        ("from 256", 15, 256, (14, 1)),
        ("to 257", 16, 257, (14, 1)),
        ("to 258", 32, 258, (14, 3)),
        ("mark 263", 17, 263, (15, 1)),
        ("mark 257", 25, 257, (15, 2)),
        ("mark 256", 33, 256, (15, 3)),
        ("D 65,537", 18, 65_537, (16, 1)),
        ("D 66,205", 34, 66_205, (16, 3)),
    ];
    for (name, place, number, refusal) in cases {
        expect_refusal(tester, name, &alder_with(place, number), 2_000, refusal);
    }
}

/// Limits of the table, one past them.
fn limits(tester: &mut Tester) {
    let cases = [
        ("month 0", 0, 0, (4, 0)),
        ("month 13", 0, 13, (4, 0)),
        ("s 0", 1, 0, (5, 0)),
        ("s 17", 1, 17, (5, 0)),
        ("n 0", 2, 0, (6, 0)),
        ("n 65", 2, 65, (6, 0)),
        ("T 0", 3, 0, (7, 0)),
        ("T 2,000,001", 3, 2_000_001, (7, 0)),
        ("T all bits", 3, u32::MAX, (7, 0)),
        ("April, t 721", 4, 721, (8, 0)),
        ("power 0", 5, 0, (10, 1)),
        ("power 1,000,001", 10, 1_000_001, (10, 2)),
        ("power all bits", 5, u32::MAX, (10, 1)),
        ("flag 2", 6, 2, (11, 1)),
        ("Q 20,001", 7, 20_001, (12, 1)),
        ("Q 1 with flag 0", 12, 1, (12, 2)),
        ("h 1,001", 14, 1_001, (13, 2)),
        ("from 3", 15, 3, (14, 1)),
        ("a line from 0 to 0", 32, 0, (23, 3)),
        ("a line from 2 to 2", 23, 2, (24, 2)),
        ("mark 5", 17, 5, (15, 1)),
        ("D 0", 18, 0, (16, 1)),
        ("D 5,001", 26, 5_001, (16, 2)),
        ("WP 10,000,001", 19, 10_000_001, (17, 1)),
        ("WN all bits", 38, u32::MAX, (17, 3)),
        ("WQ without its meter", 36, 1, (18, 3)),
        ("WG without its meter", 21, 1, (18, 1)),
        ("site 1 unfed", 16, 2, (19, 1)),
    ];
    for (name, place, number, refusal) in cases {
        expect_refusal(tester, name, &alder_with(place, number), 2_000, refusal);
    }
}

fn counts(tester: &mut Tester) {
    for count in 0..5 {
        let name = format!("{count} numbers");
        expect_refusal(tester, &name, &ALDER_LIST[..count], 2_000, (1, 0));
    }
    for count in [5, 6, 31, 34, 38] {
        let name = format!("{count} numbers");
        expect_refusal(tester, &name, &ALDER_LIST[..count], 2_000, (9, 0));
    }
    for more in [1, 5, 8, 256, 65_536] {
        let mut numbers = ALDER_LIST.to_vec();
        numbers.resize(39 + more, 0);
        expect_refusal(tester, &format!("{more} too many"), &numbers, 2_000, (9, 0));
    }
}

/// Which of two refusals comes first.
fn orders(tester: &mut Tester) {
    expect_refusal(tester, "4 numbers, month 13", &[13, 2, 3, 500_000], 2_000, (1, 0));
    expect_refusal(tester, "5 numbers, month 13", &[13, 2, 3, 500_000, 200], 2_000, (4, 0));
    expect_refusal(tester, "5 numbers, t 721", &[4, 2, 3, 500_000, 721], 2_000, (8, 0));
    let mut numbers = alder_with(5, 0);
    numbers.push(0);
    expect_refusal(tester, "Power 0, one number too many", &numbers, 2_000, (9, 0));
    numbers.truncate(38);
    expect_refusal(tester, "Power 0, one number too few", &numbers, 2_000, (9, 0));
    let mut numbers = alder_with(14, 1_001);
    numbers[18] = 0;
    expect_refusal(tester, "Site 2 with h 1,001, line 1 with D 0", &numbers, 2_000, (13, 2));
    let mut numbers = alder_with(16, 2);
    numbers[38] = 1;
    expect_refusal(tester, "Site 1 unfed, WN on line 3", &numbers, 2_000, (18, 3));
}

fn buffers(tester: &mut Tester) {
    for length in [0, 1, 13, 14, 98] {
        expect_refusal(tester, &format!("A buffer of {length}"), &ALDER_LIST, length, (22, 0));
    }
    let largest = largest_park().to_list();
    expect_refusal(tester, "A buffer of 1,533", &largest, 1_533, (22, 0));
    expect_refusal(tester, "No numbers, no buffer", &[], 0, (1, 0));
    expect_refusal(tester, "Month 260, no buffer", &alder_with(0, 260), 0, (4, 0));
    expect_refusal(tester, "One number too few, no buffer", &ALDER_LIST[..38], 0, (9, 0));
    expect_refusal(tester, "Site 1 unfed, buffer of 98", &alder_with(16, 2), 98, (19, 1));
    expect_refusal(tester, "Site 1 unfed, no buffer", &alder_with(16, 2), 0, (19, 1));
}
