//! That product, by both ways to the surcharge, and plain answer alike of files: without it their times
//! say nothing.

use crate::calls::{Bill, ByTable, Calls, Plain, Product};
use crate::files::{Files, ALDER};
use crate::random::Random;

/// What every place holds before a call, so that one left alone is seen.
const UNWRITTEN: u64 = 0x5EED_5EED_5EED_5EED;

/// A list longer than the largest park fills.
pub const ROOM: usize = 11 * 16 + 3;

/// All that a call leaves: its number, its place, the site count, and the list or the bill.
#[derive(Debug, PartialEq)]
pub struct Outcome {
    pub number: u64,
    pub place: u64,
    pub sites: u64,
    pub numbers: Vec<u64>,
}

pub fn checked<C: Calls>(file: &[u8]) -> Outcome {
    let mut place = UNWRITTEN;
    let number = C::check(file, &mut place);
    Outcome { number, place, sites: UNWRITTEN, numbers: Vec::new() }
}

fn site_billed<C: Calls>(file: &[u8], site: u64) -> Outcome {
    let (mut place, mut bill): (u64, Bill) = (UNWRITTEN, [UNWRITTEN; 11]);
    let number = C::bill_site(file, &mut bill, site, &mut place);
    Outcome { number, place, sites: UNWRITTEN, numbers: bill.to_vec() }
}

pub fn park_billed<C: Calls>(file: &[u8], list_len: usize) -> Outcome {
    let (mut place, mut sites) = (UNWRITTEN, UNWRITTEN);
    let mut numbers = vec![UNWRITTEN; ROOM];
    let number = C::bill_park(file, &mut numbers[..list_len], &mut place, &mut sites);
    Outcome { number, place, sites, numbers }
}

/// Panics unless all leave the same, in every call, for every file of a set: as it is, with a byte
/// changed, with three changed, cut short, and a byte too long. Gives the numbers that `check` and
/// the billing calls answered, as bits.
pub fn assert_agree(files: &Files, seed: u64) -> u32 {
    let mut random = Random::new(seed);
    let mut numbers = 0;
    for file in files.iter() {
        assert_eq!(park_billed::<Plain>(file, ROOM).number, 0, "accepted");
        let cut = random.between(0, file.len() as u64 - 1) as usize;
        let longer = [file, &[0]].concat();
        for file in [file, &file[..cut], &longer] {
            numbers |= assert_agree_on(file, files.sites);
        }
        for changes in [1, 3] {
            let mut damaged = file.to_vec();
            for _ in 0..changes {
                damage(&mut random, &mut damaged);
            }
            numbers |= assert_agree_on(&damaged, files.sites);
        }
    }
    numbers
}

/// Changes a byte to one that some rule minds.
fn damage(random: &mut Random, file: &mut [u8]) {
    let place = random.between(0, file.len() as u64 - 1) as usize;
    let any = random.next() as u8;
    file[place] = random.pick(&[0, 1, 2, 3, 4, 8, 17, 65, 255, any]);
}

/// Every site and one to either side; a list of each length that matters.
pub fn assert_agree_on(file: &[u8], sites: u64) -> u32 {
    let mut numbers = 0;
    let mut assert_alike = |product: Outcome, plain: Outcome, call: &str| {
        assert_eq!(product, plain, "{call} {file:?}");
        numbers |= 1 << plain.number;
    };
    assert_alike(checked::<Product>(file), checked::<Plain>(file), "check");
    for site in 0..=sites + 1 {
        let plain = || site_billed::<Plain>(file, site);
        assert_alike(site_billed::<Product>(file, site), plain(), "bill_site");
        assert_alike(site_billed::<ByTable>(file, site), plain(), "bill_site by table");
    }
    let needed = 11 * sites as usize;
    for list_len in [needed - 1, needed, ROOM] {
        let plain = || park_billed::<Plain>(file, list_len);
        assert_alike(park_billed::<Product>(file, list_len), plain(), "bill_park");
        assert_alike(park_billed::<ByTable>(file, list_len), plain(), "bill_park by table");
    }
    numbers
}

/// Panics unless plain leaves the numbers that 01 prints for Park Alder.
pub fn assert_alder() {
    let printed = [
        [26_000, 867, 17_270_000, 0, 100_000, 863_500, 334_500, 328_725, 0, 1_526_725, 0],
        [8_000, 533, 5_476_000, 0, 0, 273_800, 0, 21_928, 27_380, 268_348, 0],
    ];
    let billed = park_billed::<Plain>(&ALDER, ROOM);
    assert_eq!(billed.numbers[..22], printed.concat());
}
