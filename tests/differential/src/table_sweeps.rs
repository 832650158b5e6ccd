//! Sweeps over the table of the surcharge (02, R-6): parks of both versions whose tangent is that
//! of each entry, or one behind the table, with a Pc of which a factor wrong by a millionth changes
//! P2, and with the largest; and a tangent of 0 of a site that owes no Pc. Tangent and Pc are asserted
//! of the calculator's bill.

use crate::calculator::bill_site;
use crate::compare::Tester;
use crate::expect::{PC, SETTLED, TANGENT};
use crate::generator_parks::{second, small_second};
use crate::park::Park;
use crate::parks::{one_line, small_park};

/// Tangents further behind the table than the first three.
const BEHIND: [u32; 10] =
    [2_047, 2_048, 2_049, 2_500, 4_000, 4_001, 10_000, 65_536, 99_998, 99_999];

/// With this Pc, in kopecks, or more, P2 shows every millionth of the factor.
const TELLING: u64 = 1_000_000;

pub fn run(tester: &mut Tester) {
    one_charge(tester, 0);
    nothing_left(tester);
    for tangent in (1..=2_003).chain(BEHIND) {
        one_charge(tester, tangent);
        largest_charge(tester, tangent);
    }
}

/// Compares a park whose one site has this tangent and this Pc at least.
fn charged(tester: &mut Tester, name: &str, tangent: u32, charge: u64, park: &Park) {
    let file = park.to_file();
    let bill = bill_site(&file, 1).expect("a park of the sweep is accepted");
    assert_eq!(bill[TANGENT], tangent as u64, "{name}");
    assert!(bill[PC] >= charge, "{name}, Pc {}", bill[PC]);
    tester.file(name, &file);
}

/// One line, in version 1, in version 2, and there with half of WP0 from a generator.
fn one_charge(tester: &mut Tester, tangent: u32) {
    let [active, reactive] = match tangent {
        // 0.4999 is rounded to 0.
        0 => [10_000_000, 4_999],
        1..=10_000 => [1_000_000, 1_000 * tangent],
        _ => [100_000, 100 * tangent],
    };
    let first = one_line(2_000_000, 5_000, active, reactive);
    let line = [0, 1, 1, 5_000, active / 2, reactive, 0, 0, 0];
    let generated = small_second(2_000_000, &[[16, 1, 0, 0, 0]], &[line], &[[1, active / 2]]);
    let parks = [("1", first.clone()), ("2", second(first, &[])), ("2, a generator", generated)];
    for (version, park) in parks {
        charged(tester, &format!("tg {tangent}, version {version}"), tangent, TELLING, &park);
    }
}

/// The largest Pc, 640,000,000,000, from tg 667 on: 64 lines leave it a tangent of 1,000 or more,
/// and with the most that 32 generators make one of 667 or more. Below that Pc is tg times
/// 960,000,000.
fn largest_charge(tester: &mut Tester, tangent: u32) {
    let reactive = (15_000 * tangent).min(10_000_000);
    let active = (640_000_000_000 / tangent as u64).min(960_000_000);
    let of_line = (active / 64).min(10_000_000) as u32;
    let of_generator = ((active - 64 * of_line as u64) / 32) as u32;
    let charge = 64_000 * reactive as u64;
    let sites = [[16, 1, 0, 0, 0]];
    let line = [0, 1, 1, 5_000, of_line, reactive, 0, 0, 0];
    let park = small_second(2_000_000, &sites, &[line; 64], &[[1, of_generator]; 32]);
    charged(tester, &format!("largest Pc, tg {tangent}, version 2"), tangent, charge, &park);
    if tangent >= 1_000 {
        let [first @ .., _] = line;
        let park = small_park(2_000_000, &sites, &[first; 64]);
        charged(tester, &format!("largest Pc, tg {tangent}"), tangent, charge, &park);
    }
}

/// A tangent of 0 as a transit takes off all of WQ0, or more: the site consumes nothing and owes Pg
/// alone (02, R-7), though D leaves losses.
fn nothing_left(tester: &mut Tester) {
    for taken_off in [10_000, 10_001, 20_000] {
        let lines = [[0, 1, 1, 5_000, 1_000, 10_000, 0, 0], [1, 0, 1, 1, 0, taken_off, 0, 0]];
        let park = small_park(2_000_000, &[[16, 1, 1_000, 0, 0]], &lines);
        let name = format!("WQ0 10,000 less {taken_off}");
        let bill = bill_site(&park.to_file(), 1).expect("a park of the sweep is accepted");
        assert!(bill[SETTLED] > 0 && bill[PC] == 0, "{name}");
        charged(tester, &name, 0, 0, &park);
        charged(tester, &format!("{name}, version 2"), 0, 0, &second(park, &[]));
    }
}
