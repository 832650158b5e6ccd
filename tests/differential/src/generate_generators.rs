//! Random parks of version 2 (02, R-5), made from those of version 1: some lines get a meter of
//! active generation, and some sites with devices get generators; now and then WP0 of such a site is
//! brought near 0, or its tangent near a limit. The marks of stations come last, in
//! generate_stations.rs.

use crate::generate::{random_high_tangent, random_park, random_reading, Scale, SCALES};
use crate::generate_stations::mark_stations;
use crate::layout::Version;
use crate::park::{Generator, Line, Park, Site, ACTIVE_GENERATED_METER};
use crate::random::Random;
use crate::steps::work_out;

const MOST_READING: i128 = 10_000_000;

pub fn random_park_of(random: &mut Random, version: Version) -> Park {
    let mut park = random_park(random);
    if version == Version::Two {
        park.version = version;
        let scale = random.pick(&SCALES);
        measure_active_generation(random, &mut park.lines, scale);
        park.generators = random_generators(random, &mut park.sites, scale);
        if !park.generators.is_empty() && random.chance(50) {
            aim(random, &mut park);
        }
        mark_stations(random, &mut park.sites);
    }
    park
}

/// Gives some of the lines, all or none the meter and a reading.
fn measure_active_generation(random: &mut Random, lines: &mut [Line], scale: Scale) {
    let percent = random.pick(&[0, 20, 50, 50, 80, 100]);
    for line in lines {
        if random.chance(percent) {
            line.meters |= ACTIVE_GENERATED_METER;
            line.active_generated = random_active_generation(random, line.active, scale);
        }
    }
}

/// None, a part of WP or a little more than it, or of its own.
fn random_active_generation(random: &mut Random, active: u32, scale: Scale) -> u32 {
    let reading = match random.index(6) {
        0 => 0,
        1 | 2 => active as u64 * random.between(0, 1_500) / 1_000,
        3 => random.pick(&[1, 9_999_999, 10_000_000]),
        _ => random_reading(random, scale),
    };
    reading.min(10_000_000) as u32
}

/// None, one, some or as many as there may be, at sites with devices.
fn random_generators(random: &mut Random, sites: &mut [Site], scale: Scale) -> Vec<Generator> {
    let any = random.index(33);
    let some = random.index(4) + 2;
    let count = random.pick(&[0, 1, 1, some, some, some, 32, any]);
    if count > 0 && random.chance(20) {
        sites[sites.len() - 1].flag = 1;
    }
    if count > 0 && sites.iter().all(|site| site.flag == 0) {
        sites[random.index(sites.len())].flag = 1;
    }
    let flagged: Vec<u32> =
        (1..=sites.len() as u32).filter(|site| sites[*site as usize - 1].flag == 1).collect();
    // All at one site, from the highest site down, or at any.
    let style = random.index(4);
    let one = random.index(flagged.len().max(1));
    let zero_percent = random.pick(&[0, 10, 50, 100]);
    let generator = |index: usize| Generator {
        site: match style {
            0 => flagged[one],
            1 => flagged[flagged.len() - 1 - index % flagged.len()],
            _ => random.pick(&flagged),
        },
        output: match random.chance(zero_percent) {
            true => 0,
            false if random.chance(5) => 10_000_000,
            false => random_reading(random, scale) as u32,
        },
    };
    (0..count).map(generator).collect()
}

/// Brings WP0 of a site with a generator near 0, or near what makes a high tangent, by a reading of
/// the generator, of an input or of a transit, as far as its limits let it.
fn aim(random: &mut Random, park: &mut Park) {
    let index = random.index(park.generators.len());
    let site = park.generators[index].site;
    let work = work_out(park, site as usize);
    let (active, reactive) = (work.consumption.active, work.consumption.reactive.max(0));
    let near_zero = random.pick(&[-1, 0, 0, 1, 2]);
    let wanted = match random.chance(50) {
        true => near_zero,
        false => reactive * 1_000 / random_high_tangent(random) as i128,
    };
    let more = wanted - active;
    let moved = |reading: u32, more: i128| (reading as i128 + more).clamp(0, MOST_READING) as u32;
    let touching: Vec<usize> = (0..park.lines.len())
        .filter(|line| [park.lines[*line].from, park.lines[*line].to].contains(&site))
        .collect();
    match random.chance(50) {
        true => park.generators[index].output = moved(park.generators[index].output, more),
        false => {
            let line = &mut park.lines[touching[random.index(touching.len())]];
            let sign = if line.to == site { -1 } else { 1 };
            line.meters |= ACTIVE_GENERATED_METER;
            line.active_generated = moved(line.active_generated, sign * more);
        }
    }
}
