//! Named tangents (02, R-4): around 2,000, around 99,999 and far above it, and what the rest of the
//! bill makes of them, the surcharge also of the largest Pc. Every expected value is written
//! by hand from the papers, and is held against the calculator as well as against the product.

use crate::compare::Tester;
use crate::expect::{expect_numbers, expect_printed};
use crate::expect::{CONSUMPTION, CUT, P2, PC, REASON, SETTLED, TANGENT, TOTAL};
use crate::parks::{one_line, small_park};

/// WP, tg and P2 of a line with WQ 10,000,000, whose Pc is 1,000,000 at D 1 and T 1,000,000.
const OF_ONE_CHARGE: [(u32, u64, u64); 13] = [
    (10_000_000, 1_000, 562_500),
    (5_002_501, 1_999, 3_059_001),
    (5_000_000, 2_000, 3_062_500),
    (4_997_501, 2_001, 3_062_500),
    (2_941_176, 3_400, 3_062_500),
    (152_590, 65_535, 3_062_500),
    (152_588, 65_536, 3_062_500),
    (142_857, 70_000, 3_062_500),
    (100_002, 99_998, 3_062_500),
    (100_001, 99_999, 3_062_500),
    // From here on limited; here from 100,000.
    (100_000, 99_999, 3_062_500),
    (1, 99_999, 3_062_500),
    // WP0 0.
    (0, 800, 302_500),
];

/// WP, tg and P2 of 64 such lines at D 5,000 and T 2,000,000, whose Pc is the largest,
/// 640,000,000,000.
const OF_LARGEST_CHARGE: [(u32, u64, u64); 6] = [
    (10_000_000, 1_000, 360_000_000_000),
    (8_000_000, 1_250, 640_000_000_000),
    (5_002_501, 1_999, 1_957_760_640_000),
    (5_000_000, 2_000, 1_960_000_000_000),
    (4_997_501, 2_001, 1_960_000_000_000),
    (1_000_000, 10_000, 1_960_000_000_000),
];

/// WQ, tg and P2 of a line with WP 10,000: tg is a tenth of WQ, rounded and limited, and Pc as much
/// as WQ at D 10 and T 1,000,000.
const ROUNDED: [(u32, u64, u64); 15] = [
    (19_984, 1_998, 61_061),
    (19_985, 1_999, 61_134),
    (19_994, 1_999, 61_162),
    (19_995, 2_000, 61_235),
    (20_004, 2_000, 61_262),
    (20_005, 2_001, 61_265),
    (20_014, 2_001, 61_293),
    (20_015, 2_002, 61_296),
    (999_984, 99_998, 3_062_451),
    (999_985, 99_999, 3_062_454),
    (999_990, 99_999, 3_062_469),
    (999_994, 99_999, 3_062_482),
    // From here on limited.
    (999_995, 99_999, 3_062_485),
    (1_000_000, 99_999, 3_062_500),
    (1_000_005, 99_999, 3_062_515),
];

/// WP and WQ of a line whose tangent in thousandths, were it not limited, would end in bytes that
/// stand for less: 131,072 in two of 0, 4,294,968,000 in four of 704, 8,589,935,000 in four of 408.
const WIDE: [(u32, u32); 3] = [(1_000, 131_072), (1, 4_294_968), (1, 8_589_935)];

/// WQ of an input with WP 1,000, and tg; then the flow of a transit with WP 1,000 and no meter.
const TRANSITS: [(u32, u64, u64); 9] = [
    (799, 799, 799),
    (800, 800, 800),
    (801, 801, 800),
    (2_000, 2_000, 800),
    (2_001, 2_001, 800),
    (2_500, 2_500, 800),
    (99_999, 99_999, 800),
    (100_000, 99_999, 800),
    (10_000_000, 99_999, 800),
];

/// What parkbill prints for the four sites.
const FOUR_SITES_PRINTED: &str = "\
site,consumption,tg,settled,cut,generation,pc,pg,p2,p3,total,reason
1,10000,99999,100000,0,0,10000,0,30625,0,40625,0
2,20000,2000,200000,0,0,20000,0,61250,10000,71250,0
3,10000,800,100000,0,0,10000,0,3025,0,13025,0
4,34000,3400,340000,0,0,34000,0,104125,0,138125,0
";

/// Runs the named tangents.
pub fn run(tester: &mut Tester) {
    four_sites(tester);
    of_one_charge(tester);
    of_largest_charge(tester);
    rounded(tester);
    far_above(tester);
    of_nothing(tester);
    estimated_transits(tester);
    reasons(tester);
}

/// Tangents above 99,999, of 2,000, of 0.8 for a WP0 of 0 and of 3.4 in one park.
fn four_sites(tester: &mut Tester) {
    let sites = [[16, 0, 0, 0, 0], [16, 0, 0, 0, 500], [16, 0, 0, 0, 0], [16, 0, 0, 0, 0]];
    let lines = [
        [0, 1, 1, 10, 1, 10_000, 0, 0],
        [0, 2, 1, 10, 10_000, 20_000, 0, 0],
        [0, 3, 1, 10, 0, 10_000, 0, 0],
        [0, 4, 1, 10, 10_000, 34_000, 0, 0],
    ];
    let park = small_park(1_000_000, &sites, &lines);
    expect_printed(tester, "Four sites with other tangents", &park, FOUR_SITES_PRINTED);
}

fn of_one_charge(tester: &mut Tester) {
    for (active, tangent, surcharge) in OF_ONE_CHARGE {
        let park = one_line(1_000_000, 1, active, 10_000_000);
        let numbers =
            [(TANGENT, tangent), (PC, 1_000_000), (P2, surcharge), (TOTAL, 1_000_000 + surcharge)];
        let name = format!("WQ0 10,000,000, WP0 {active}");
        expect_numbers(tester, &name, &park, 1, &numbers);
    }
}

fn of_largest_charge(tester: &mut Tester) {
    for (active, tangent, surcharge) in OF_LARGEST_CHARGE {
        let lines = [[0, 1, 1, 5_000, active, 10_000_000, 0, 0]; 64];
        let park = small_park(2_000_000, &[[16, 0, 0, 0, 0]], &lines);
        let numbers = [(TANGENT, tangent), (PC, 640_000_000_000), (P2, surcharge)];
        let name = format!("64 lines with WQ 10,000,000, WP {active}");
        expect_numbers(tester, &name, &park, 1, &numbers);
    }
}

fn rounded(tester: &mut Tester) {
    for (reactive, tangent, surcharge) in ROUNDED {
        let park = one_line(1_000_000, 10, 10_000, reactive);
        let charge = reactive as u64;
        let numbers =
            [(TANGENT, tangent), (PC, charge), (P2, surcharge), (TOTAL, charge + surcharge)];
        expect_numbers(tester, &format!("WQ0 {reactive}, WP0 10,000"), &park, 1, &numbers);
    }
}

fn far_above(tester: &mut Tester) {
    for (active, reactive) in WIDE {
        let park = one_line(500_000, 669, active, reactive);
        let name = format!("WQ0 {reactive}, WP0 {active}");
        expect_numbers(tester, &name, &park, 1, &[(TANGENT, 99_999)]);
    }
    // 640,000,000 / 64, then 640,000,000 / 1: the most that the limits of the table leave.
    let numbers = [
        (CONSUMPTION, 640_000_000),
        (TANGENT, 99_999),
        (PC, 640_000_000_000),
        (P2, 1_960_000_000_000),
        (TOTAL, 2_600_000_000_000),
    ];
    let mut lines = [[0, 1, 1, 5_000, 1, 10_000_000, 0, 0]; 64];
    let park = small_park(2_000_000, &[[16, 0, 0, 0, 0]], &lines);
    expect_numbers(tester, "WQ0 640,000,000, WP0 64", &park, 1, &numbers);
    for line in &mut lines[1..] {
        line[4] = 0;
    }
    let park = small_park(2_000_000, &[[16, 0, 0, 0, 0]], &lines);
    expect_numbers(tester, "WQ0 640,000,000, WP0 1", &park, 1, &numbers);
}

/// WP0 0, as no line has any and as a transit takes off more than there is, with much WQ0.
fn of_nothing(tester: &mut Tester) {
    let site = [16, 0, 0, 0, 0];
    let park = small_park(2_000_000, &[site], &[[0, 1, 1, 5_000, 0, 10_000_000, 0, 0]; 64]);
    // 640,000,000,000 x 550 x 550 / 1,000,000.
    let numbers = [(TANGENT, 800), (PC, 640_000_000_000), (P2, 193_600_000_000)];
    expect_numbers(tester, "WQ0 640,000,000, WP0 0", &park, 1, &numbers);
    let lines = [[0, 1, 1, 10, 4, 10_000_000, 0, 0], [1, 0, 1, 10, 5, 0, 0, 0]];
    let park = small_park(1_000_000, &[site], &lines);
    let numbers = [(TANGENT, 800), (PC, 10_000_000), (P2, 3_025_000)];
    expect_numbers(tester, "WQ0 10,000,000, WP0 cut", &park, 1, &numbers);
}

/// Step 3 keeps its own limit, for a line to a site and for one back to the network.
fn estimated_transits(tester: &mut Tester) {
    for (reactive, tangent, flow) in TRANSITS {
        for to in [0, 2] {
            let lines = [
                [0, 1, 1, 10, 1_000, reactive, 0, 0],
                [1, to, 0, 10, 1_000, 0, 0, 0],
                [0, 2, 0, 10, 100, 0, 0, 0],
            ];
            let park = small_park(1_000_000, &[[16, 0, 0, 0, 0]; 2], &lines);
            let name = format!("A transit to {to} without a meter, tg {tangent}, WQ {reactive}");
            let left = reactive as u64 - flow;
            let numbers = [(TANGENT, tangent), (CONSUMPTION, left), (SETTLED, 10 * left), (CUT, 0)];
            expect_numbers(tester, &name, &park, 1, &numbers);
            let inputs = if to == 2 { 880 } else { 80 };
            expect_numbers(tester, &name, &park, 2, &[(TANGENT, 800), (CONSUMPTION, inputs)]);
        }
    }
}

/// The tangent is shown whatever the reason, and where Pc is 0.
fn reasons(tester: &mut Tester) {
    let cases = [
        // Power, WP, WQ, which is also Pc at D 10 and T 1,000,000; then tg, Pc, P2 and the reason.
        ([15, 1, 10_000_000], [99_999, 0, 0, 1]),
        ([15, 10_000, 34_000], [3_400, 0, 0, 1]),
        ([16, 1, 10_000_000], [99_999, 10_000_000, 30_625_000, 0]),
        ([16, 1, 999], [99_999, 0, 0, 2]),
        ([16, 100, 999], [9_990, 0, 0, 2]),
        ([16, 1, 1_000], [99_999, 1_000, 3_063, 0]),
    ];
    for ([power, active, reactive], [tangent, charge, surcharge, reason]) in cases {
        let lines = [[0, 1, 1, 10, active, reactive, 0, 0]];
        let park = small_park(1_000_000, &[[power, 0, 0, 0, 0]], &lines);
        let name = format!("Power {power}, WQ0 {reactive}, WP0 {active}");
        let total = charge + surcharge;
        let numbers =
            [(TANGENT, tangent), (PC, charge), (P2, surcharge), (TOTAL, total), (REASON, reason)];
        expect_numbers(tester, &name, &park, 1, &numbers);
    }
    let lines = [[0, 1, 1, 1, 1, 10_000, 0, 0], [1, 0, 1, 3, 0, 5_000, 0, 0]];
    let park = small_park(1_000_000, &[[16, 0, 0, 0, 0]], &lines);
    let numbers = [(TANGENT, 99_999), (SETTLED, 0), (CUT, 5_000), (PC, 0), (P2, 0), (REASON, 0)];
    expect_numbers(tester, "Cut at zero, WQ0 5,000, WP0 1", &park, 1, &numbers);
}
