//! Named cases of charges that are not due though they would come to something, or that are due and
//! come to nothing (02, R-7). Every expected value is written by hand from the papers, and is held
//! against the calculator as well as against the product.

use crate::compare::Tester;
use crate::expect::expect_bill;
use crate::generator_parks::second;
use crate::parks::small_park;
use crate::steps::Bill;

/// T and h of a site of power 16 with flag 1, its lines, and its bill.
type Named = (&'static str, u32, u32, &'static [[u32; 8]], Bill);

const NAMED: [Named; 8] = [
    (
        "Consumption cut, losses not, h 1,000",
        1_000_000,
        1_000,
        // 1,000 x 1,000 less 1,200 x 500; tg 1,000.
        &[[0, 1, 3, 1_000, 1_000, 1_000, 1_000, 0], [1, 0, 0, 500, 1_500, 0, 0, 0]],
        [0, 1_000, 400_000, 0, 10_000, 0, 100_000, 0, 100_000, 0, 0],
    ),
    (
        "Consumption 999 of a WQ0 of 1,799",
        1_000_000,
        100,
        // 1,799 x 1,000 less 800 x 200; tg 1,799.
        &[[0, 1, 3, 1_000, 1_000, 1_799, 1_000, 0], [1, 0, 0, 200, 1_000, 0, 0, 0]],
        [999, 1_799, 1_639_000, 0, 10_000, 0, 100_000, 0, 10_000, 90_000, 0],
    ),
    (
        "Site cut at zero, Pg due",
        1_000_000,
        0,
        // 1,000 x 500 less 800 x 1,000.
        &[[0, 1, 3, 500, 1_000, 1_000, 1_000, 0], [1, 0, 0, 1_000, 1_000, 0, 0, 0]],
        [200, 1_000, 0, 300_000, 10_000, 0, 50_000, 0, 0, 50_000, 0],
    ),
    (
        "Pg due, but its weighted sum cut",
        1_000_000,
        100,
        // 2,000 x 1,000 less 1,000 x 5,000.
        &[[0, 1, 3, 1_000, 1_000, 500, 2_000, 0], [1, 0, 3, 5_000, 0, 0, 1_000, 0]],
        [500, 500, 500_000, 0, 10_000, 0, 0, 0, 0, 0, 0],
    ),
    (
        "Pg due, but less than half a kopeck",
        1,
        1_000,
        &[[0, 1, 3, 1, 999, 999, 1_000, 0]],
        [999, 1_000, 999, 0, 10_000, 0, 0, 0, 0, 0, 0],
    ),
    (
        "Pc due, but less than half a kopeck",
        1,
        1_000,
        &[[0, 1, 3, 1, 1_000, 1_000, 999, 0]],
        [1_000, 1_000, 1_000, 0, 9_990, 0, 0, 0, 0, 0, 0],
    ),
    (
        "Generation 10,000 by WG, 9,990 by WN",
        1_000_000,
        1_000,
        &[[0, 1, 7, 1_000, 4_000, 2_000, 1_000, 999]],
        [2_000, 500, 2_000_000, 0, 9_990, 200_000, 0, 12_500, 200_000, 12_500, 0],
    ),
    (
        "Generation cut, its weighted sum not",
        1_000_000,
        1_000,
        // The sum of the generation readings is 5,000 x 1,000 less 6,000 x 500.
        &[[0, 1, 3, 1_000, 4_000, 2_000, 5_000, 0], [1, 0, 3, 500, 0, 0, 6_000, 0]],
        [2_000, 500, 2_000_000, 0, 0, 200_000, 0, 12_500, 200_000, 12_500, 0],
    ),
];

/// Runs the named cases of struck charges.
pub fn run(tester: &mut Tester) {
    whole_bills(tester);
    largest(tester);
}

fn whole_bills(tester: &mut Tester) {
    for (name, price, discount, lines, bill) in NAMED {
        let park = small_park(price, &[[16, 1, 0, 0, discount]], lines);
        expect_bill(tester, name, &park, &bill);
        expect_bill(tester, &format!("{name}, version 2"), &second(park, &[]), &bill);
    }
}

/// The largest settled losses of a site that consumes nothing: 320,000,000 come in at D 5,000 and go
/// back at D 1.
fn largest(tester: &mut Tester) {
    let input = [0, 1, 3, 5_000, 1_000_000, 10_000_000, 10_000_000, 0];
    let mut lines = [input; 64];
    lines[32..].fill([1, 0, 1, 1, 0, 10_000_000, 0, 0]);
    let park = small_park(2_000_000, &[[16, 1, 0, 0, 500]], &lines);
    let (settled, charge) = (1_599_680_000_000, 320_000_000_000);
    let bill = [0, 0, settled, 0, 3_200_000_000, 0, charge, 0, charge / 2, charge / 2, 0];
    expect_bill(tester, "The largest struck Pc", &park, &bill);
}
