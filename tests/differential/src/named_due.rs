//! Named cases of what is due (02, R-7): both sides of each limit, in both versions and in months
//! before April and after, and demand 3; those of struck charges are in named_struck.rs. Every
//! expected value is written by hand from the papers, and is held against the calculator as well as
//! against the product.

use crate::compare::Tester;
use crate::expect::{expect_balance, expect_bill, expect_printed};
use crate::generator_parks::{generator, second};
use crate::named_struck;
use crate::park::Park;
use crate::parks::small_park;
use crate::steps::Bill;

/// Of a site with h 125, two inputs with D 1,000 and 501, T 1,000,000 and t 1: its power, WQ of the
/// second input, Q and P; then its bill. WP0 is 2,000, so tg is 499.5 or 500. Pc is a tenth of the
/// settled losses, 90,020 of 900,200; P2 is a sixteenth of it. Dm is 750.5, so Pg of 10,000 tenths is
/// 75,100. P3 is an eighth of what is due.
const AT_LIMITS: [([u32; 4], Bill); 8] = [
    ([15, 199, 0, 3_333], [999, 500, 899_699, 0, 9_999, 0, 0, 0, 0, 0, 1]),
    ([15, 199, 1_000, 0], [999, 500, 899_699, 0, 10_000, 0, 0, 0, 0, 0, 1]),
    ([15, 200, 0, 3_333], [1_000, 500, 900_200, 0, 9_999, 0, 0, 0, 0, 0, 1]),
    ([15, 200, 1_000, 0], [1_000, 500, 900_200, 0, 10_000, 0, 0, 0, 0, 0, 1]),
    ([16, 199, 0, 3_333], [999, 500, 899_699, 0, 9_999, 0, 0, 0, 0, 0, 2]),
    ([16, 199, 1_000, 0], [999, 500, 899_699, 0, 10_000, 0, 75_100, 0, 9_388, 65_712, 0]),
    ([16, 200, 0, 3_333], [1_000, 500, 900_200, 0, 9_999, 90_020, 0, 5_626, 11_253, 84_393, 0]),
    (
        [16, 200, 1_000, 0],
        [1_000, 500, 900_200, 0, 10_000, 90_020, 75_100, 5_626, 20_640, 150_106, 0],
    ),
];

/// Of a site with an input with D 1,000 and WP 400 at T 1,000,000: WQ and the generation reading that
/// counts; then its bill. tg is 2,497.5 or 2,500, and the surcharge is 3.0625 times Pc.
const METERED: [([u32; 2], Bill); 4] = [
    ([999, 999], [999, 2_498, 999_000, 0, 9_990, 0, 0, 0, 0, 0, 2]),
    ([999, 1_000], [999, 2_498, 999_000, 0, 10_000, 0, 100_000, 0, 0, 100_000, 0]),
    ([1_000, 999], [1_000, 2_500, 1_000_000, 0, 9_990, 100_000, 0, 306_250, 0, 406_250, 0]),
    (
        [1_000, 1_000],
        [1_000, 2_500, 1_000_000, 0, 10_000, 100_000, 100_000, 306_250, 0, 506_250, 0],
    ),
];

/// What parkbill prints for the five sites.
const FIVE_SITES_PRINTED: &str = "\
site,consumption,tg,settled,cut,generation,pc,pg,p2,p3,total,reason
1,30000,750,20070000,0,100000,0,0,0,0,0,1
2,999,999,668331,0,10000,0,33450,0,3345,30105,0
3,1000,333,669000,0,0,33450,0,230,3345,30335,0
4,30000,750,20070000,0,100000,1003500,334500,250875,0,1588875,0
5,900,1000,630000,0,9800,0,0,0,0,0,2
";

/// Power, flag, Q, P and h of the five sites, and their input lines.
const FIVE_SITES: [([u32; 5], [u32; 8]); 5] = [
    ([15, 1, 50, 0, 100], [0, 1, 1, 669, 40_000, 30_000, 0, 0]),
    ([16, 1, 5, 0, 100], [0, 2, 1, 669, 1_000, 999, 0, 0]),
    ([16, 0, 0, 0, 100], [0, 3, 1, 669, 3_000, 1_000, 0, 0]),
    ([100, 1, 50, 0, 0], [0, 4, 1, 669, 40_000, 30_000, 0, 0]),
    ([16, 1, 4, 3, 100], [0, 5, 1, 700, 900, 900, 0, 0]),
];

/// Runs the named cases of what is due.
pub fn run(tester: &mut Tester) {
    at_limits(tester);
    metered(tester);
    five_sites(tester);
    wide(tester);
    named_struck::run(tester);
    balances(tester);
}

/// Version 1, version 2, and version 2 with half of the second input's WP from a generator.
fn at_limits(tester: &mut Tester) {
    for ([power, reactive, compensation, motors], bill) in AT_LIMITS {
        let sites = [[power, 1, compensation, motors, 125]];
        let lines = [[0, 1, 1, 1_000, 1_000, 800, 0, 0], [0, 1, 1, 501, 1_000, reactive, 0, 0]];
        let first = Park { hours: 1, ..small_park(1_000_000, &sites, &lines) };
        let mut generated = second(first.clone(), &[]);
        generated.lines[1].active = 500;
        generated.generators = vec![generator([1, 500])];
        let parks = [first.clone(), second(first, &[]), generated];
        for (kind, park) in ["version 1", "version 2", "a generator"].iter().zip(parks) {
            for month in [1, 3, 4, 12] {
                let [consumption, generation] = [bill[0], bill[4]];
                let name = format!(
                    "Power {power}, consumption {consumption}, generation {generation}, {kind}, \
                     month {month}"
                );
                expect_bill(tester, &name, &Park { month, ..park.clone() }, &bill);
            }
        }
    }
}

/// Generation by WG, and by WN with a WG above the limit.
fn metered(tester: &mut Tester) {
    for ([reactive, reading], bill) in METERED {
        for [mark, generated, night] in [[3, reading, 0], [7, 5_000, reading]] {
            let lines = [[0, 1, mark, 1_000, 400, reactive, generated, night]];
            let park = small_park(1_000_000, &[[16, 1, 0, 0, 0]], &lines);
            let name = format!("WQ {reactive}, mark {mark}, generation reading {reading}");
            expect_bill(tester, &name, &park, &bill);
            let park = Park { month: 2, ..second(park, &[[1, 0]]) };
            expect_bill(tester, &format!("{name}, version 2"), &park, &bill);
        }
    }
}

/// A park of these of the five sites, counted from 1.
fn of_five(numbers: &[usize]) -> Park {
    let mut sites = Vec::new();
    let mut lines = Vec::new();
    for (to, number) in (1..).zip(numbers) {
        let (site, mut line) = FIVE_SITES[number - 1];
        line[1] = to;
        sites.push(site);
        lines.push(line);
    }
    Park { month: 2, hours: 200, ..small_park(500_000, &sites, &lines) }
}

/// Each kind of site in one park.
fn five_sites(tester: &mut Tester) {
    let park = of_five(&[1, 2, 3, 4, 5]);
    expect_printed(tester, "Five sites", &park, FIVE_SITES_PRINTED);
    let park = second(park, &[[4, 0], [2, 0]]);
    expect_printed(tester, "Five sites, version 2", &park, FIVE_SITES_PRINTED);
}

/// A consumption of 65,537 in two bytes is 1; a generation of 4,294,967,300 in four bytes is 4; a
/// power of 65,551 in two bytes and one of 271 in one byte are 15.
fn wide(tester: &mut Tester) {
    let mut lines = [[0, 1, 3, 1, 0, 0, 10_000_000, 0]; 43];
    (lines[0][5], lines[0][6]) = (65_537, 9_496_730);
    let park = small_park(2_000_000, &[[16, 1, 0, 0, 0]], &lines);
    // P2 is 0.3025 of Pc as WP0 is 0; Pg is a fifth of 429,496,730.
    let bill = [65_537, 800, 65_537, 0, 4_294_967_300, 13_107, 85_899_346, 3_965, 0, 85_916_418, 0];
    let name = "Consumption 65,537, generation 4,294,967,300";
    expect_bill(tester, name, &park, &bill);
    expect_bill(tester, &format!("{name}, version 2"), &second(park, &[]), &bill);
    let ([reactive, reading], bill) = METERED[3];
    for power in [17, 271, 65_551, 1_000_000] {
        let lines = [[0, 1, 3, 1_000, 400, reactive, reading, 0]];
        let park = small_park(1_000_000, &[[power, 1, 0, 0, 0]], &lines);
        expect_bill(tester, &format!("Power {power}, both just due"), &park, &bill);
    }
}

/// Demand 3 of parks of the five sites: both energies, whether the charges are asked for, and how far
/// they are from the price of the energy, in ten-millionths of a kopeck.
fn balances(tester: &mut Tester) {
    let cases = [
        // 1,003,500 + 33,450 kopecks are the price of 20,739,000.
        ("Pc due, Pg of one not", of_five(&[3, 4]), (20_739_000, true, 0)),
        // 33,416.55 kopecks are the struck Pc.
        ("Pc of one not due", of_five(&[2, 4]), (20_738_331, false, 334_165_500_000)),
        ("Power 15", of_five(&[4, 1]), (40_140_000, false, 10_035_000_000_000)),
        ("Neither due", of_five(&[3, 5]), (1_299_000, false, 315_000_000_000)),
    ];
    for (name, first, expected) in cases {
        for park in [first.clone(), second(first, &[])] {
            expect_balance(tester, name, &park, expected);
        }
    }
}
