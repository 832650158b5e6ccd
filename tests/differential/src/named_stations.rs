//! Named power stations (02, R-8): each flag beside the others, Alder's sites as stations, rounding
//! and extremes, and demand 3; refused flags are in named_flags.rs. Every expected value is written
//! by hand from the papers, and is held against the calculator as well as against the product.

use crate::compare::Tester;
use crate::expect::{expect_balance, expect_bill, expect_printed};
use crate::generator_parks::{alder_with, second};
use crate::named_flags;
use crate::park::Park;
use crate::parks::{alder_cut, small_park};
use crate::steps::Bill;

/// Of a site with an input with D 1,000 and WP 400 at T 1,000,000 and h 100: its flag, WQ and the
/// generation reading; then its bill. Settled losses are 1,000 WQ, so a due Pc is 100,000; Pg of
/// 10,000 tenths is 100,000 too. tg is 2,497.5 or 2,500, and P2 is 3.0625 times Pc.
const FLAGS: [([u32; 3], Bill); 16] = [
    ([0, 999, 999], [999, 2_498, 999_000, 0, 0, 0, 0, 0, 0, 0, 2]),
    ([1, 999, 999], [999, 2_498, 999_000, 0, 9_990, 0, 0, 0, 0, 0, 2]),
    ([2, 999, 999], [999, 2_498, 999_000, 0, 0, 0, 0, 0, 0, 0, 2]),
    ([3, 999, 999], [999, 2_498, 999_000, 0, 9_990, 0, 0, 0, 0, 0, 2]),
    // Pg alone: a station has the reason of the site without the mark, and no money.
    ([0, 999, 1_000], [999, 2_498, 999_000, 0, 0, 0, 0, 0, 0, 0, 2]),
    ([1, 999, 1_000], [999, 2_498, 999_000, 0, 10_000, 0, 100_000, 0, 10_000, 90_000, 0]),
    ([2, 999, 1_000], [999, 2_498, 999_000, 0, 0, 0, 0, 0, 0, 0, 2]),
    ([3, 999, 1_000], [999, 2_498, 999_000, 0, 10_000, 0, 0, 0, 0, 0, 0]),
    // Pc alone.
    ([0, 1_000, 999], [1_000, 2_500, 1_000_000, 0, 0, 100_000, 0, 306_250, 10_000, 396_250, 0]),
    ([1, 1_000, 999], [1_000, 2_500, 1_000_000, 0, 9_990, 100_000, 0, 306_250, 10_000, 396_250, 0]),
    ([2, 1_000, 999], [1_000, 2_500, 1_000_000, 0, 0, 100_000, 0, 0, 10_000, 90_000, 0]),
    ([3, 1_000, 999], [1_000, 2_500, 1_000_000, 0, 9_990, 100_000, 0, 0, 10_000, 90_000, 0]),
    // Both; P3 is a tenth of Pc and Pg, at a station of Pc.
    ([0, 1_000, 1_000], [1_000, 2_500, 1_000_000, 0, 0, 100_000, 0, 306_250, 10_000, 396_250, 0]),
    (
        [1, 1_000, 1_000],
        [1_000, 2_500, 1_000_000, 0, 10_000, 100_000, 100_000, 306_250, 20_000, 486_250, 0],
    ),
    ([2, 1_000, 1_000], [1_000, 2_500, 1_000_000, 0, 0, 100_000, 0, 0, 10_000, 90_000, 0]),
    ([3, 1_000, 1_000], [1_000, 2_500, 1_000_000, 0, 10_000, 100_000, 0, 0, 10_000, 90_000, 0]),
];

/// Of a site with an input with D 1 and WP 9, WQ and WG 5,000,000 at T 1: its flag and h; then its
/// bill. Pc and Pg are half a kopeck each, so 1, and P2 is 3.0625 times that.
const HALVES: [([u32; 2], Bill); 8] = [
    ([1, 250], [5_000_000, 99_999, 5_000_000, 0, 50_000_000, 1, 1, 3, 1, 4, 0]),
    ([3, 250], [5_000_000, 99_999, 5_000_000, 0, 50_000_000, 1, 0, 0, 0, 1, 0]),
    ([1, 499], [5_000_000, 99_999, 5_000_000, 0, 50_000_000, 1, 1, 3, 1, 4, 0]),
    ([3, 499], [5_000_000, 99_999, 5_000_000, 0, 50_000_000, 1, 0, 0, 0, 1, 0]),
    ([1, 500], [5_000_000, 99_999, 5_000_000, 0, 50_000_000, 1, 1, 3, 1, 4, 0]),
    ([3, 500], [5_000_000, 99_999, 5_000_000, 0, 50_000_000, 1, 0, 0, 1, 0, 0]),
    ([2, 500], [5_000_000, 99_999, 5_000_000, 0, 0, 1, 0, 0, 1, 0, 0]),
    ([3, 1_000], [5_000_000, 99_999, 5_000_000, 0, 50_000_000, 1, 0, 0, 1, 0, 0]),
];

/// What parkbill prints for Alder's sites with flags 3 and 2.
const ALDER_STATIONS_PRINTED: &str = "\
site,consumption,tg,settled,cut,generation,pc,pg,p2,p3,total,reason
1,26000,867,17270000,0,100000,863500,0,0,0,863500,0
2,8000,533,5476000,0,0,273800,0,0,27380,246420,0
";

/// The same with flags 3 and 0 and a generator of 10,000 kWh at site 1: WP0 is 40,000 there.
const ALDER_GENERATOR_PRINTED: &str = "\
site,consumption,tg,settled,cut,generation,pc,pg,p2,p3,total,reason
1,26000,650,17270000,0,100000,863500,0,0,0,863500,0
2,8000,533,5476000,0,0,273800,0,21928,27380,268348,0
";

/// The same with flags 3 and 2, no generator, and WQ 40,000 on line 2.
const ALDER_CUT_PRINTED: &str = "\
site,consumption,tg,settled,cut,generation,pc,pg,p2,p3,total,reason
1,0,0,0,7930000,100000,0,0,0,0,0,0
2,44000,2933,30676000,0,0,1533800,0,0,153380,1380420,0
";

/// In ten-millionths of one.
const KOPECK: i128 = 10_000_000;

/// Runs the named stations.
pub fn run(tester: &mut Tester) {
    alders(tester);
    flags(tester);
    computed(tester);
    halves(tester);
    neighbours(tester);
    largest(tester);
    balances(tester);
    named_flags::files(tester);
}

/// A park of version 2 with these flags.
fn flagged<const COUNT: usize>(park: Park, flags: [u32; COUNT]) -> Park {
    let mut park = second(park, &[]);
    assert_eq!(park.sites.len(), COUNT);
    for (site, flag) in park.sites.iter_mut().zip(flags) {
        site.flag = flag;
    }
    park
}

fn alders(tester: &mut Tester) {
    let park = flagged(alder_with(&[]), [3, 2]);
    expect_printed(tester, "Alder, both sites stations", &park, ALDER_STATIONS_PRINTED);
    let mut park = alder_with(&[[1, 10_000]]);
    park.sites[0].flag = 3;
    expect_printed(tester, "Alder, a generator at a station", &park, ALDER_GENERATOR_PRINTED);
    let park = flagged(alder_cut(), [3, 2]);
    expect_printed(tester, "Alder, a station cut", &park, ALDER_CUT_PRINTED);
}

/// Each flag on both sides of each limit, generation by WG, and by WN with a WG above its limit.
fn flags(tester: &mut Tester) {
    for ([flag, reactive, reading], bill) in FLAGS {
        for [mark, generated, night] in [[3, reading, 0], [7, 5_000, reading]] {
            let lines = [[0, 1, mark, 1_000, 400, reactive, generated, night]];
            for (power, month) in [(16, 1), (16, 4), (400, 12), (15, 4)] {
                let park = small_park(1_000_000, &[[power, flag, 0, 0, 100]], &lines);
                let park = Park { month, ..second(park, &[]) };
                let name = format!(
                    "Flag {flag}, WQ {reactive}, mark {mark}, generation reading {reading}, \
                     power {power}, month {month}"
                );
                let [consumption, tangent, settled, cut, generation, ..] = bill;
                let weak = [consumption, tangent, settled, cut, generation, 0, 0, 0, 0, 0, 1];
                expect_bill(tester, &name, &park, if power == 15 { &weak } else { &bill });
            }
        }
    }
}

/// The same with a computed generation of 9,999 or 10,000, where there are devices: 3P or 10Q at t 1,
/// times D 1,000, T and 1 / 100,000,000 is 100,000 for the latter.
fn computed(tester: &mut Tester) {
    for ([flag, reactive, reading], mut bill) in FLAGS {
        let [compensation, motors] = match (flag, reading) {
            (0 | 2, _) => [0, 0],
            (_, 999) => [0, 3_333],
            _ => [1_000, 0],
        };
        if bill[4] == 9_990 {
            bill[4] = 9_999;
        }
        let sites = [[16, flag, compensation, motors, 100]];
        let lines = [[0, 1, 1, 1_000, 400, reactive, 0, 0]];
        let park = second(small_park(1_000_000, &sites, &lines), &[]);
        let name = format!("Flag {flag}, WQ {reactive}, Q {compensation}, P {motors}");
        expect_bill(tester, &name, &Park { hours: 1, ..park }, &bill);
    }
}

fn halves(tester: &mut Tester) {
    for ([flag, discount], bill) in HALVES {
        let lines = [[0, 1, 3, 1, 9, 5_000_000, 5_000_000, 0]];
        let park = second(small_park(1, &[[16, flag, 0, 0, discount]], &lines), &[]);
        expect_bill(tester, &format!("Flag {flag}, h {discount}, T 1"), &park, &bill);
    }
}

/// A mark is its own site's alone: three sites like that of `FLAGS` with both limits reached.
fn neighbours(tester: &mut Tester) {
    let rows = [
        "1000,2500,1000000,0,0,100000,0,306250,10000,396250,0",
        "1000,2500,1000000,0,10000,100000,100000,306250,20000,486250,0",
        "1000,2500,1000000,0,0,100000,0,0,10000,90000,0",
        "1000,2500,1000000,0,10000,100000,0,0,10000,90000,0",
    ];
    let lines = [1, 2, 3].map(|to| [0, to, 3, 1_000, 400, 1_000, 1_000, 0]);
    for index in 0..64 {
        let flags = [index % 4, index / 4 % 4, index / 16];
        let park = flagged(small_park(1_000_000, &[[16, 0, 0, 0, 100]; 3], &lines), flags);
        let mut text =
            "site,consumption,tg,settled,cut,generation,pc,pg,p2,p3,total,reason\n".to_string();
        for (site, flag) in (1..).zip(flags) {
            text += &format!("{site},{}\n", rows[flag as usize]);
        }
        expect_printed(tester, &format!("Three sites, flags {flags:?}"), &park, &text);
    }
}

/// The largest bill of a station, its discount half of it: 64 x 10,000,000 x 5,000 at T 2,000,000.
fn largest(tester: &mut Tester) {
    let lines = [[0, 1, 7, 5_000, 1_000_000, 10_000_000, 10_000_000, 10_000_000]; 64];
    let charge = 640_000_000_000;
    for (flag, generation) in [(2, 0), (3, 6_400_000_000)] {
        let park = small_park(2_000_000, &[[1_000_000, flag, 0, 0, 500]], &lines);
        let bill = [
            640_000_000,
            10_000,
            3_200_000_000_000,
            0,
            generation,
            charge,
            0,
            0,
            charge / 2,
            charge / 2,
            0,
        ];
        expect_bill(tester, &format!("The largest, flag {flag}"), &second(park, &[]), &bill);
    }
}

/// Demand 3 of parks of two sites: both energies, whether the charges are asked for, and how far they
/// are from the price of the energy, in ten-millionths of a kopeck.
fn balances(tester: &mut Tester) {
    let two = |readings: [[u32; 2]; 2]| {
        let line = |to: usize| {
            let [reactive, generated] = readings[to - 1];
            [0, to as u32, 3, 1_000, 400, reactive, generated, 0]
        };
        small_park(1_000_000, &[[16, 0, 0, 0, 100]; 2], &[line(1), line(2)])
    };
    let cases = [
        // 863,500 + 273,800 kopecks are the price of 22,746,000.
        ("Alder, stations", flagged(alder_with(&[]), [3, 2]), (22_746_000, true, 0)),
        // 1,533,800 kopecks are 396,500 more than the price of 22,746,000.
        (
            "Alder, a station cut",
            flagged(alder_cut(), [3, 2]),
            (22_746_000, false, 396_500 * KOPECK),
        ),
        ("Both due", flagged(two([[1_000, 1_000]; 2]), [3, 2]), (2_000_000, true, 0)),
        // Reason 0 at both, but Pc of the station, 99,900 kopecks, is not due.
        (
            "A station without money",
            flagged(two([[999, 1_000], [1_000, 1_000]]), [3, 1]),
            (1_999_000, false, 99_900 * KOPECK),
        ),
        (
            "Two stations, one of reason 2",
            flagged(two([[1_000, 0], [999, 1_000]]), [2, 2]),
            (1_999_000, false, 99_900 * KOPECK),
        ),
    ];
    for (name, park, expected) in cases {
        expect_balance(tester, name, &park, expected);
    }
}
