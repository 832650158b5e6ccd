//! Sweeps: every value of one thing while the rest stays, in places where a table or a byte may be
//! wrong at a single value. Those over files of version 2 are in generator_sweeps.rs, and that over
//! the table of the surcharge is in table_sweeps.rs, those over the limits of step 7 in due_sweeps.rs,
//! those over power stations in station_sweeps.rs.

use crate::compare::Tester;
use crate::due_sweeps;
use crate::generator_sweeps;
use crate::park::{Park, MONTH_HOURS};
use crate::parks::{alder, one_line, small_park, with_line};
use crate::station_sweeps;
use crate::table_sweeps;

pub fn run(tester: &mut Tester) {
    every_byte(tester);
    hours_of_months(tester);
    ends_of_lines(tester);
    tangents(tester);
    high_tangents(tester);
    tenths_of_tangents(tester);
    around_the_reasons(tester);
    generator_sweeps::run(tester);
    table_sweeps::run(tester);
    due_sweeps::run(tester);
    station_sweeps::run(tester);
}

/// Park Alder with each byte set to each value.
fn every_byte(tester: &mut Tester) {
    let mut file = alder().to_file();
    for offset in 0..file.len() {
        let before = file[offset];
        for value in 0..=255 {
            file[offset] = value;
            tester.file(&format!("Alder, byte {offset} set to {value}"), &file);
        }
        file[offset] = before;
    }
}

/// Rule 8: each month's most hours, and one more.
fn hours_of_months(tester: &mut Tester) {
    for month in 1..=12 {
        let most = MONTH_HOURS[month as usize - 1];
        for hours in [most - 1, most, most + 1] {
            let file = Park { month, hours, ..alder() }.to_file();
            tester.file(&format!("month {month}, t {hours}"), &file);
        }
    }
}

/// Rules 14, 23 and 24: every two ends up to two above the most sites, on a line that feeds no site
/// alone, with a right mark and with a wrong one.
fn ends_of_lines(tester: &mut Tester) {
    for (sites, mark) in [1, 2, 15, 16].into_iter().flat_map(|sites| [(sites, 1), (sites, 5)]) {
        for (from, to) in (0..=18).flat_map(|from| (0..=18).map(move |to| (from, to))) {
            let file = with_line(sites, from, to, mark).to_file();
            tester.file(&format!("{sites} sites, a line {from} to {to}, mark {mark}"), &file);
        }
    }
}

/// Steps 2 and 10: every tangent from 0 to 2,000 and a little more, with small and large charges.
fn tangents(tester: &mut Tester) {
    for tangent in 0..=2_010 {
        for (price, active, eerp) in [(1_999_999, 4_000_000, 4_999), (500_000, 30_000, 7)] {
            let park = one_line(price, eerp, active, active / 1_000 * tangent);
            tester.file(&format!("tg {tangent}, T {price}"), &park.to_file());
        }
    }
}

/// Steps 2 and 10 (02, R-4): tangents above those, all near the limit of 99,999 and near the powers
/// of two and a sample of the rest, with small and large charges.
fn high_tangents(tester: &mut Tester) {
    let near_limit = 99_899..=100_099;
    let near_powers = (11..=23).flat_map(|digits| (1 << digits) - 3..=(1 << digits) + 3);
    let between = (2_011..99_899).step_by(97);
    for tangent in near_limit.chain(near_powers).chain(between) {
        let large = 10_000_000 / tangent * 1_000;
        for (price, active, eerp) in [(1_999_999, large, 4_999), (500_000, 1_000, 7)] {
            let park = one_line(price, eerp, active, active / 1_000 * tangent);
            tester.file(&format!("tg {tangent}, T {price}"), &park.to_file());
        }
    }
}

/// Step 2: tangents around 2,000 and around 99,999 in steps of a tenth, to be rounded.
fn tenths_of_tangents(tester: &mut Tester) {
    for tenths in (19_970..=20_030).chain(999_960..=1_000_030) {
        let park = one_line(1_000_000, 10, 10_000, tenths);
        tester.file(&format!("tg {tenths} tenths"), &park.to_file());
    }
}

/// Step 7: consumption and generation on both sides of their limits, for powers around 16.
fn around_the_reasons(tester: &mut Tester) {
    for power in [1, 14, 15, 16, 17, 271, 65_551, 65_552] {
        for (reactive, generated) in
            (998..=1_001).flat_map(|one| (998..=1_001).map(move |two| (one, two)))
        {
            let lines = [[0, 1, 3, 5_000, 2_000, reactive, generated, 0]];
            let park = small_park(2_000_000, &[[power, 1, 0, 0, 333]], &lines);
            let name = format!("power {power}, WQ {reactive}, WG {generated}");
            tester.file(&name, &park.to_file());
        }
    }
}
