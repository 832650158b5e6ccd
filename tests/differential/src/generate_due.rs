//! Random parks brought near the limits of step 7 (02, R-7): power near 16, consumption near 1,000
//! by the reactive readings of the inputs, generation near 10,000 tenths by Q, P and t or by the
//! readings that are counted. Every park stays one that the table accepts.

use crate::park::{Line, Park, REACTIVE_METER};
use crate::random::Random;
use crate::steps::{work_out, Source};

const MOST_READING: i128 = 10_000_000;

/// Brings one site or all of them near the limits. A transit of a site is an input of a higher one,
/// so from the last site to the first each site stays as it was brought.
pub fn aim_at_limits(random: &mut Random, park: &mut Park) {
    if random.chance(60) {
        park.hours = random.pick(&[1, 3, 9, 10, 11, 100, 101]);
    }
    let one = random.index(park.sites.len()) + 1;
    let all = random.chance(50);
    for number in (1..=park.sites.len()).rev() {
        if all || number == one {
            let power = park.sites[number - 1].power;
            park.sites[number - 1].power = random.pick(&[15, 16, 16, 16, power, power]);
            aim_consumption(random, park, number);
            aim_generation(random, park, number);
        }
    }
}

/// The lines of a park that are inputs of a site.
fn inputs(park: &mut Park, number: usize) -> impl Iterator<Item = &mut Line> {
    park.lines.iter_mut().filter(move |line| line.to as usize == number)
}

fn moved(reading: u32, more: i128) -> u32 {
    (reading as i128 + more).clamp(0, MOST_READING) as u32
}

/// Moves WQ of each input in turn, as far as the limits of a reading let it.
fn aim_consumption(random: &mut Random, park: &mut Park, number: usize) {
    let wanted = random.pick(&[-1, 0, 500, 998, 999, 999, 999, 1_000, 1_000, 1_000, 1_001]);
    if random.chance(70) {
        inputs(park, number).for_each(|line| line.meters |= REACTIVE_METER);
    }
    for index in 0..inputs(park, number).count() {
        let more = wanted - work_out(park, number).consumption.energy;
        let line = inputs(park, number).nth(index).expect("an input");
        if line.measures_reactive() {
            line.reactive = moved(line.reactive, more);
        }
    }
}

fn aim_generation(random: &mut Random, park: &mut Park, number: usize) {
    if random.chance(70) {
        park.sites[number - 1].flag = 1;
    }
    match work_out(park, number).generation.source {
        Source::Nothing => {}
        Source::Computed => aim_devices(random, park, number),
        Source::Metered | Source::MeteredAtNight => aim_readings(random, park, number),
    }
}

/// Sets Q and P so that 10Q + 3P is the wanted tenths divided by t, rounded up.
fn aim_devices(random: &mut Random, park: &mut Park, number: usize) {
    let wanted = random.pick(&[9_990, 9_998, 9_999, 9_999, 9_999, 10_000, 10_000, 10_001]);
    let sum = u32::div_ceil(wanted, park.hours.max(1));
    // 3 times 7 leaves 1 of a 10, so this P leaves the last digit of the sum to 3P.
    let motors = (7 * sum % 10).min(sum / 3);
    let site = &mut park.sites[number - 1];
    (site.motors, site.compensation) = (motors, (sum - 3 * motors) / 10);
}

/// Moves WG of each input in turn, and WN with it where that is counted.
fn aim_readings(random: &mut Random, park: &mut Park, number: usize) {
    let wanted = random.pick(&[-1, 0, 998, 999, 999, 1_000, 1_000, 1_001]);
    for index in 0..inputs(park, number).count() {
        let made = work_out(park, number).generation;
        let more = wanted - made.energy / 10;
        let line = inputs(park, number).nth(index).expect("an input");
        match made.source {
            Source::MeteredAtNight => {
                line.night = moved(line.night, more);
                line.generated = line.generated.max(line.night);
            }
            _ => {
                line.generated = moved(line.generated, more);
                line.night = line.night.min(line.generated);
            }
        }
    }
}
