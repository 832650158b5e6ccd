//! The named cases of 01 ("Park Alder, and its neighbours"), starred and unstarred, and a few of
//! "Shortcuts the annex forbids"; those of 02 are in named_ends.rs, named_marks.rs,
//! named_tangents.rs (R-4, and the largest Pc for R-6), named_generators.rs, named_due.rs
//! and named_stations.rs. Every expected value is written by hand from the paper, and is held
//! against the calculator as well as against the product.

use crate::balance::balance;
use crate::compare::Tester;
use crate::expect::{expect_numbers, expect_printed, expect_reply};
use crate::expect::{
    CONSUMPTION, CUT, GENERATION, P2, P3, PC, PG, REASON, SETTLED, TANGENT, TOTAL,
};
use crate::list::site;
use crate::named_due;
use crate::named_ends;
use crate::named_generators;
use crate::named_stations;
use crate::named_tangents;
use crate::park::Park;
use crate::parks::{alder, alder_cut, one_line, small_park};
use crate::parks::{ALDER_CUT_PRINTED, ALDER_FILE, ALDER_PRINTED};
use crate::product::{UNWRITTEN, WAYS};

/// Runs all named cases.
pub fn run(tester: &mut Tester) {
    alders(tester);
    tangents(tester);
    money(tester);
    reasons(tester);
    refusals(tester);
    named_ends::files(tester);
    named_tangents::run(tester);
    named_generators::run(tester);
    named_due::run(tester);
    named_stations::run(tester);
    forbidden_shortcuts(tester);
    generations(tester);
    extremes(tester);
}

fn alders(tester: &mut Tester) {
    let file = alder().to_file();
    tester.same(format_args!("Alder's bytes"), &ALDER_FILE[..], &file[..]);
    for way in WAYS {
        let mut list = [UNWRITTEN; 22];
        tester.product.bill_park(way, &ALDER_FILE, &mut list);
        let bills = [0, 11].map(|start| list[start..start + 11].try_into().expect("eleven"));
        let energies = balance(&alder(), &bills).map(|balance| (balance.settled, balance.network));
        let right = Some((22_746_000, 22_746_000));
        tester.same(format_args!("Alder's energies {way}"), right, energies);
    }
    expect_printed(tester, "Alder", &alder(), ALDER_PRINTED);
    expect_printed(tester, "Alder, WQ 40,000 on line 2", &alder_cut(), ALDER_CUT_PRINTED);
}

fn tangents(tester: &mut Tester) {
    let cases = [
        ("WQ0 1, WP0 2,000", 2_000, 1, 1),
        ("WP0 0", 0, 5_000, 800),
        ("WQ0 5,000, WP0 2,000", 2_000, 5_000, 2_500),
    ];
    for (name, active, reactive, tangent) in cases {
        let park = one_line(500_000, 669, active, reactive);
        expect_numbers(tester, name, &park, 1, &[(TANGENT, tangent)]);
    }
}

fn money(tester: &mut Tester) {
    // Settled losses 10,000 x 1,000 at T 1,000,000 are a Pc of 1,000,000.
    let numbers = [(TANGENT, 250), (PC, 1_000_000), (P2, 0)];
    expect_numbers(tester, "tg 250", &one_line(1_000_000, 1_000, 40_000, 10_000), 1, &numbers);
    let numbers = [(TANGENT, 251), (PC, 1_000_000), (P2, 1)];
    expect_numbers(tester, "tg 251", &one_line(1_000_000, 1_000, 39_841, 10_000), 1, &numbers);
    let numbers = [(SETTLED, 4_999_999), (PC, 0), (REASON, 0)];
    expect_numbers(tester, "Settled x T 4,999,999", &one_line(1, 1, 9, 4_999_999), 1, &numbers);
    let numbers = [(SETTLED, 5_000_000), (PC, 1), (REASON, 0)];
    expect_numbers(tester, "Settled x T 5,000,000", &one_line(1, 1, 9, 5_000_000), 1, &numbers);
}

fn reasons(tester: &mut Tester) {
    // Generation 3 x 1,111 x 3 hours is 9,999; with Q 0 and P 0 it is 0.
    let metered = |motors, reactive, power| {
        small_park(500_000, &[[power, 1, 0, motors, 0]], &[[0, 1, 1, 669, 3_000, reactive, 0, 0]])
    };
    let numbers = [(CONSUMPTION, 999), (GENERATION, 9_999), (REASON, 2), (PC, 0), (TOTAL, 0)];
    expect_numbers(
        tester,
        "Consumption 999, generation 9,999",
        &metered(1_111, 999, 400),
        1,
        &numbers,
    );
    let numbers = [(CONSUMPTION, 1_000), (GENERATION, 0), (PC, 33_450), (PG, 0), (REASON, 0)];
    expect_numbers(tester, "Consumption 1,000, generation 0", &metered(0, 1_000, 400), 1, &numbers);
    // 10,008 x 669 x 500,000 / 100,000,000 is 33,476.76.
    let numbers =
        [(CONSUMPTION, 999), (GENERATION, 10_008), (PC, 0), (PG, 33_477), (P2, 0), (REASON, 0)];
    expect_numbers(
        tester,
        "Consumption 999, generation 10,008",
        &metered(1_112, 999, 400),
        1,
        &numbers,
    );
    let numbers = [(REASON, 1), (PC, 0), (PG, 0), (P2, 0), (P3, 0), (TOTAL, 0)];
    expect_numbers(tester, "Power 15", &metered(1_111, 30_000, 15), 1, &numbers);
    expect_numbers(tester, "Power 15 before reason 2", &metered(0, 0, 15), 1, &numbers);
    expect_numbers(tester, "Power 16", &metered(1_111, 30_000, 16), 1, &[(REASON, 0)]);
    expect_numbers(tester, "Power 16, too little", &metered(0, 0, 16), 1, &[(REASON, 2)]);
}

fn refusals(tester: &mut Tester) {
    let march = |hours| Park { month: 3, hours, ..alder() }.to_file();
    expect_reply(tester, "Month 3, t 743", &march(743), None);
    expect_reply(tester, "Month 3, t 744", &march(744), Some((8, 0)));
    let mut file = ALDER_FILE;
    file[0] = b'Q';
    file[3] = 2;
    expect_reply(tester, "Wrong mark and wrong version", &file, Some((2, 0)));
    let mut park = alder();
    park.sites[1].discount = 1_001;
    park.lines[0].eerp = 0;
    expect_reply(tester, "Site 2 with h 1,001, line 1 with D 0", &park.to_file(), Some((13, 2)));
}

fn forbidden_shortcuts(tester: &mut Tester) {
    let plain = [400, 0, 0, 0, 0];
    let devices = [400, 1, 0, 0, 0];
    let park = small_park(500_000, &[devices], &[[0, 1, 3, 669, 9_000, 5_000, 3_000, 0]]);
    let numbers = [(CONSUMPTION, 5_000), (GENERATION, 30_000)];
    expect_numbers(tester, "Generation not taken off", &park, 1, &numbers);

    let lines = [
        [0, 1, 1, 10, 0, 1_000, 0, 0],
        [1, 0, 1, 10, 0, 1_500, 0, 0],
        [0, 1, 1, 10, 0, 1_000, 0, 0],
    ];
    let numbers = [(CONSUMPTION, 500), (SETTLED, 5_000), (CUT, 0)];
    expect_numbers(
        tester,
        "Not cut after each line",
        &small_park(1, &[plain], &lines),
        1,
        &numbers,
    );

    let lines = [[0, 1, 1, 1_000, 0, 1_000, 0, 0], [1, 0, 1, 500, 0, 1_200, 0, 0]];
    let numbers = [(CONSUMPTION, 0), (SETTLED, 400_000), (CUT, 0), (REASON, 2)];
    expect_numbers(tester, "Consumption cut alone", &small_park(1, &[plain], &lines), 1, &numbers);

    // tg is 500 without the unmetered transit; that flows 1,000 out of site 1, 1,600 into site 2.
    let lines = [[0, 1, 1, 10, 10_000, 5_000, 0, 0], [1, 2, 0, 10, 2_000, 0, 0, 0]];
    let park = small_park(1, &[plain, plain], &lines);
    let numbers = [(TANGENT, 500), (CONSUMPTION, 4_000), (SETTLED, 40_000)];
    expect_numbers(tester, "A transit estimated by tg", &park, 1, &numbers);
    let numbers = [(TANGENT, 800), (CONSUMPTION, 1_600), (SETTLED, 16_000)];
    expect_numbers(tester, "The same line as an input", &park, 2, &numbers);
}

/// One site with an input that measures everything, and a transit with this mark, to the network.
fn with_transit(meters: u32, generated: u32, night: u32) -> Park {
    let lines =
        [[0, 1, 7, 1_000, 4_000, 2_000, 5_000, 2_000], [1, 0, meters, 500, 0, 0, generated, night]];
    small_park(1_000_000, &[[400, 1, 50, 0, 0]], &lines)
}

fn generations(tester: &mut Tester) {
    // Pg is the weighted sum times T, a tenth of the sum at T 1,000,000.
    let numbers = [(GENERATION, 15_000), (PG, 175_000)];
    expect_numbers(tester, "Night valley on both", &with_transit(7, 1_000, 500), 1, &numbers);
    let numbers = [(GENERATION, 40_000), (PG, 450_000)];
    expect_numbers(tester, "Night valley on one", &with_transit(3, 1_000, 0), 1, &numbers);
    let numbers = [(GENERATION, 50_000), (PG, 500_000)];
    expect_numbers(tester, "Transit without the meter", &with_transit(1, 0, 0), 1, &numbers);
    let numbers = [(GENERATION, 0), (PG, 0), (REASON, 0)];
    expect_numbers(tester, "Generation cut alone", &with_transit(3, 6_000, 0), 1, &numbers);

    // Dm of 669 and 700 is 684.5, so 685; 10 x 500 x 3 x 685 x 1,000,000 / 100,000,000 is 102,750.
    let lines = [[0, 1, 1, 669, 4_000, 2_000, 0, 0], [0, 1, 7, 700, 4_000, 2_000, 900, 300]];
    let park = small_park(1_000_000, &[[400, 1, 500, 0, 0]], &lines);
    expect_numbers(tester, "Computed", &park, 1, &[(GENERATION, 15_000), (PG, 102_750)]);
    let mut flagless = with_transit(7, 1_000, 500);
    flagless.sites[0] = site([400, 0, 0, 0, 0]);
    expect_numbers(tester, "Flag 0", &flagless, 1, &[(GENERATION, 0), (PG, 0)]);
}

/// The largest amounts that the limits of the table leave.
fn extremes(tester: &mut Tester) {
    let full = [0, 1, 7, 5_000, 1_000_000, 10_000_000, 10_000_000, 10_000_000];
    let park = small_park(2_000_000, &[[1_000_000, 1, 0, 0, 1_000]], &[full; 64]);
    let numbers = [
        (TANGENT, 10_000),
        (SETTLED, 3_200_000_000_000),
        (GENERATION, 6_400_000_000),
        (PC, 640_000_000_000),
        (PG, 640_000_000_000),
        (P2, 1_960_000_000_000),
        (P3, 1_280_000_000_000),
        (TOTAL, 1_960_000_000_000),
    ];
    expect_numbers(tester, "The largest bill", &park, 1, &numbers);

    let back = [1, 0, 7, 5_000, 10_000_000, 10_000_000, 10_000_000, 10_000_000];
    let mut lines = [back; 64];
    lines[63] = [0, 1, 7, 1, 0, 0, 0, 0];
    let park = small_park(2_000_000, &[[1_000_000, 1, 0, 0, 0]], &lines);
    let numbers =
        [(SETTLED, 0), (CUT, 3_150_000_000_000), (TANGENT, 800), (GENERATION, 0), (REASON, 2)];
    expect_numbers(tester, "The largest cut", &park, 1, &numbers);

    let lines = [[0, 1, 1, 5_000, 0, 0, 0, 0]];
    let mut park = small_park(2_000_000, &[[16, 1, 20_000, 20_000, 0]], &lines);
    (park.month, park.hours) = (10, 745);
    let numbers = [(GENERATION, 193_700_000), (PG, 19_370_000_000), (REASON, 0)];
    expect_numbers(tester, "The largest computed generation", &park, 1, &numbers);
}
