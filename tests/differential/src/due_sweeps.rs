//! Sweeps over the limits of step 7 (02, R-7): each month and version, and each value near a limit.

use crate::compare::Tester;
use crate::generator_parks::second;
use crate::park::Park;
use crate::parks::small_park;

pub fn run(tester: &mut Tester) {
    every_month(tester);
    around_the_limits(tester);
}

/// Compares a park of version 1, and the same of version 2.
fn both_versions(tester: &mut Tester, name: &str, park: Park) {
    tester.file(name, &park.to_file());
    tester.file(&format!("{name}, version 2"), &second(park, &[]).to_file());
}

/// A site with this power, Q, P and line, at t 1.
fn site(power: u32, [compensation, motors]: [u32; 2], line: [u32; 8]) -> Park {
    let site = [power, 1, compensation, motors, 333];
    Park { hours: 1, ..small_park(2_000_000, &[site], &[line]) }
}

/// Each month, with both powers and both sides of each limit, generation metered by day or by night
/// or computed.
fn every_month(tester: &mut Tester) {
    for month in 1..=12 {
        for (power, reactive) in [(15, 999), (15, 1_000), (16, 999), (16, 1_000)] {
            let computed = [[0, 3_333], [1_000, 0]].map(|devices| (devices, [1, 0, 0]));
            let by_day = [999, 1_000].map(|reading| ([0, 0], [3, reading, 0]));
            let at_night = [999, 1_000].map(|reading| ([0, 0], [7, 2_000, reading]));
            for (devices, [mark, day, night]) in computed.into_iter().chain(by_day).chain(at_night)
            {
                let line = [0, 1, mark, 5_000, 2_000, reactive, day, night];
                let park = Park { month, ..site(power, devices, line) };
                let name = format!(
                    "month {month}, power {power}, WQ {reactive}, Q and P {devices:?}, \
                     mark {mark}, WG {day}, WN {night}"
                );
                both_versions(tester, &name, park);
            }
        }
    }
}

/// Each consumption near 1,000 and each computed generation near 10,000 tenths.
fn around_the_limits(tester: &mut Tester) {
    for reactive in 995..=1_005 {
        for tenths in 9_990..=10_010 {
            // 3 times 7 leaves 1 of a 10, so 10Q + 3P is the tenths.
            let motors = 7 * tenths % 10;
            let devices = [(tenths - 3 * motors) / 10, motors];
            let park = site(16, devices, [0, 1, 1, 5_000, 2_000, reactive, 0, 0]);
            both_versions(tester, &format!("WQ {reactive}, generation {tenths}"), park);
        }
    }
}
