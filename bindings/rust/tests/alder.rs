//! The safe calls on Park Alder.

use park::{check, encode, Bill, Refusal};

type BillSite = fn(&[u8], u64) -> Result<Bill, Refusal>;
type BillPark = fn(&[u8], &mut [u64]) -> Result<u64, Refusal>;

/// The billing calls, by both ways to the surcharge.
const WAYS: [(BillSite, BillPark); 2] =
    [(park::bill_site, park::bill_park), (park::bill_site_by_table, park::bill_park_by_table)];

const ALDER: &[u8] = include_bytes!("../../../examples/alder.prk");

const BILLS: [u64; 22] = [
    26_000, 867, 17_270_000, 0, 100_000, 863_500, 334_500, 328_725, 0, 1_526_725, 0, //
    8_000, 533, 5_476_000, 0, 0, 273_800, 0, 21_928, 27_380, 268_348, 0,
];

#[test]
fn alder_is_billed() {
    assert_eq!(check(ALDER), Ok(()));
    for (bill_site, bill_park) in WAYS {
        let mut list = [7; 23];
        assert_eq!(bill_park(ALDER, &mut list), Ok(2));
        assert_eq!(list[..22], BILLS);
        assert_eq!(list[22], 7);
        assert_eq!(bill_site(ALDER, 1).map(Vec::from), Ok(BILLS[..11].to_vec()));
        assert_eq!(bill_site(ALDER, 2).map(Vec::from), Ok(BILLS[11..].to_vec()));
    }
}

/// Alder's numbers: the header, two sites, three lines.
const NUMBERS: [u32; 39] = [
    4, 2, 3, 500_000, 200, //
    400, 1, 50, 0, 0, //
    100, 0, 0, 0, 100, //
    0, 1, 1, 669, 40_000, 30_000, 0, 0, //
    1, 2, 1, 700, 10_000, 4_000, 0, 0, //
    0, 2, 0, 669, 5_000, 0, 0, 0,
];

#[test]
fn alder_is_made_of_its_numbers() {
    let mut file = [7; 100];
    assert_eq!(encode(&NUMBERS, &mut file), Ok(99));
    assert_eq!(file[..99], *ALDER);
    assert_eq!(file[99], 7);
    let mut just_enough = [7; 99];
    assert_eq!(encode(&NUMBERS, &mut just_enough), Ok(99));
    assert_eq!(just_enough, *ALDER);
}

#[test]
fn a_refusal_leaves_the_buffer() {
    let mut short = [7; 98];
    assert_eq!(encode(&NUMBERS, &mut short), Err(Refusal { number: 22, place: 0 }));
    assert_eq!(short, [7; 98]);
    let mut numbers = NUMBERS;
    numbers[6] = 257;
    let mut file = [7; 100];
    assert_eq!(encode(&numbers, &mut file), Err(Refusal { number: 11, place: 1 }));
    assert_eq!(file, [7; 100]);
}

/// Line 2 of Alder with these ends.
fn with_ends(from: u8, to: u8) -> (Vec<u8>, [u32; 39]) {
    let (mut file, mut numbers) = (ALDER.to_vec(), NUMBERS);
    file[57..59].copy_from_slice(&[from, to]);
    numbers[23..25].copy_from_slice(&[from.into(), to.into()]);
    (file, numbers)
}

#[test]
fn the_ends_of_a_line_are_told_apart() {
    for (from, to, number) in [(1, 3, 14), (3, 2, 14), (0, 0, 23), (2, 1, 24), (2, 2, 24)] {
        let (file, numbers) = with_ends(from, to);
        let refusal = Refusal { number, place: 2 };
        assert_eq!(check(&file), Err(refusal));
        let mut list = [7; 22];
        for (bill_site, bill_park) in WAYS {
            assert_eq!(bill_site(&file, 1), Err(refusal));
            assert_eq!(bill_park(&file, &mut list), Err(refusal));
            assert_eq!(list, [7; 22]);
        }
        let mut made = [7; 99];
        assert_eq!(encode(&numbers, &mut made), Err(refusal));
        assert_eq!(made, [7; 99]);
    }
    let (file, numbers) = with_ends(1, 0);
    assert_eq!(check(&file), Ok(()));
    assert_eq!(encode(&numbers, &mut [7; 99]), Ok(99));
}

#[test]
fn refusals_have_number_and_place() {
    let mut file = ALDER.to_vec();
    file.push(0);
    assert_eq!(check(&file), Err(Refusal { number: 9, place: 0 }));
    let mut list = [7; 21];
    for (bill_site, bill_park) in WAYS {
        assert_eq!(bill_site(ALDER, 3), Err(Refusal { number: 20, place: 0 }));
        assert_eq!(bill_park(ALDER, &mut list), Err(Refusal { number: 21, place: 0 }));
        assert_eq!(list, [7; 21]);
    }
}
