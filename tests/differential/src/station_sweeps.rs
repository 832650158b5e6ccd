//! Sweeps over power stations (02, R-8): every flag of a byte in both versions, every two small ones,
//! each value near a limit of step 7, and every tangent up to a little more than the table has.

use crate::compare::Tester;
use crate::generator_parks::second;
use crate::park::Park;
use crate::parks::small_park;

pub fn run(tester: &mut Tester) {
    every_flag(tester);
    two_flags(tester);
    around_the_limits(tester);
    every_tangent(tester);
}

/// Two sites with these flags, Q and P, each fed by a line that measures generation.
fn two_sites(sites: [[u32; 3]; 2]) -> Park {
    let site = |[flag, compensation, motors]: [u32; 3]| [16, flag, compensation, motors, 100];
    let lines = [1, 2].map(|to| [0, to, 3, 5_000, 2_000, 3_000, 4_000, 0]);
    small_park(2_000_000, &sites.map(site), &lines)
}

/// Rules 11, 12 and 26: each flag at the first and the last site, with Q and P 0 or not, with a
/// generator there and without.
fn every_flag(tester: &mut Tester) {
    let devices = [[0, 0], [1, 0], [0, 1], [20_000, 20_000], [20_001, 0], [0, 20_001]];
    for flag in 0..=255 {
        for (index, [compensation, motors]) in
            [0, 1].into_iter().flat_map(|index| devices.map(|devices| (index, devices)))
        {
            let mut sites = [[1, 50, 0]; 2];
            sites[index] = [flag, compensation, motors];
            let park = two_sites(sites);
            let site = index as u32 + 1;
            let name = format!("site {site} with flag {flag}, Q {compensation}, P {motors}");
            tester.file(&format!("{name}, version 1"), &park.to_file());
            for generators in [&[][..], &[[3 - site, 7], [site, 7]]] {
                let file = second(park.clone(), generators).to_file();
                tester.file(&format!("{name}, version 2, generators {generators:?}"), &file);
            }
        }
    }
}

/// Which of two sites is refused: flags up to 7 at both, Q 0 or not, and generators at both.
fn two_flags(tester: &mut Tester) {
    for [one, two] in (0..=7).flat_map(|one| (0..=7).map(move |two| [one, two])) {
        for compensations in [[0, 0], [1, 0], [0, 1], [1, 1]] {
            let park = two_sites([[one, compensations[0], 0], [two, compensations[1], 0]]);
            for generators in [&[][..], &[[2, 7], [1, 7]]] {
                let file = second(park.clone(), generators).to_file();
                let name = format!(
                    "flags {one} and {two}, Q {compensations:?}, generators {generators:?}"
                );
                tester.file(&name, &file);
            }
        }
    }
}

/// Each flag with either power, consumption and generation near their limits, generation metered by
/// day or by night or computed, and h 0, 333 and 1,000.
fn around_the_limits(tester: &mut Tester) {
    for (flag, power) in (0..=3).flat_map(|flag| [15, 16].map(|power| (flag, power))) {
        for (reactive, reading) in
            (998..=1_001).flat_map(|one| (998..=1_001).map(move |two| (one, two)))
        {
            for (mark, discount) in
                [1, 3, 7].into_iter().flat_map(|mark| [0, 333, 1_000].map(|h| (mark, h)))
            {
                let (day, night) = match mark {
                    1 => (0, 0),
                    3 => (reading, 0),
                    _ => (5_000, reading),
                };
                let compensation = if mark == 1 && flag % 2 == 1 { reading } else { 0 };
                let sites = [[power, flag, compensation, 0, discount]];
                let lines = [[0, 1, mark, 5_000, 2_000, reactive, day, night]];
                let park = Park { hours: 1, ..small_park(2_000_000, &sites, &lines) };
                let name = format!(
                    "flag {flag}, power {power}, WQ {reactive}, generation reading {reading}, \
                     mark {mark}, h {discount}"
                );
                tester.file(&name, &second(park, &[]).to_file());
            }
        }
    }
}

/// Step 10: no tangent, in the table or behind it, makes a P2 at a station of either flag.
fn every_tangent(tester: &mut Tester) {
    for tangent in (0..=2_010).chain([2_047, 2_048, 4_000, 10_000, 65_536, 99_998, 99_999]) {
        let sites = [[16, 2, 0, 0, 250], [16, 3, 50, 0, 250]];
        let lines = [1, 2].map(|to| [0, to, 1, 4_999, 100_000, 100 * tangent, 0, 0]);
        let park = second(small_park(1_999_999, &sites, &lines), &[]);
        tester.file(&format!("stations, tg {tangent}"), &park.to_file());
    }
}
