//! Random parks of version 1 that the table of 01 accepts, of all shapes, with values on and near
//! every limit and with small ones, so that rounding halves, reasons 1 and 2 and high tangents
//! happen; some are brought near the limits of step 7 by generate_due.rs. Those of version 2 are in
//! generate_generators.rs.

use crate::generate_due::aim_at_limits;
use crate::layout::Version;
use crate::park::{Line, Park, Site, MONTH_HOURS};
use crate::park::{GENERATED_METER, NIGHT_METER, REACTIVE_METER};
use crate::random::Random;
use crate::shapes::random_shape;

/// How large the readings of a park are.
#[derive(Clone, Copy)]
pub enum Scale {
    Tiny,
    AroundThousand,
    Round,
    Large,
    Limits,
    Mixed,
}

pub const SCALES: [Scale; 6] =
    [Scale::Tiny, Scale::AroundThousand, Scale::Round, Scale::Large, Scale::Limits, Scale::Mixed];

/// Which meters the lines of a park have.
#[derive(Clone, Copy)]
enum Metering {
    Any,
    AllNight,
    NightButOne,
    ReactiveEverywhere,
    ReactiveBetweenSites,
    None,
}

const METERINGS: [Metering; 7] = [
    Metering::Any,
    Metering::Any,
    Metering::AllNight,
    Metering::NightButOne,
    Metering::ReactiveEverywhere,
    Metering::ReactiveBetweenSites,
    Metering::None,
];

pub fn random_park(random: &mut Random) -> Park {
    let shape = random_shape(random);
    let month = random.between(1, 12) as u32;
    let most_hours = MONTH_HOURS[month as usize - 1] as u64;
    let middle_hours = random.between(1, most_hours);
    let mut park = Park {
        version: Version::One,
        month,
        price: random_price(random) as u32,
        hours: random.pick(&[0, 1, 3, most_hours - 1, most_hours, middle_hours, middle_hours])
            as u32,
        sites: (0..shape.sites).map(|_| random_site(random)).collect(),
        lines: random_lines(random, &shape.ends),
        generators: Vec::new(),
    };
    if random.chance(35) {
        make_flows_sensible(random, &mut park);
    }
    clear_unmetered(&mut park.lines);
    if random.chance(25) {
        aim_at_limits(random, &mut park);
    }
    park
}

fn random_price(random: &mut Random) -> u64 {
    let any = random.between(1, 2_000_000);
    random.pick(&[1, 2, 5_000, 250_000, 500_000, 1_000_000, 1_999_999, 2_000_000, any, any])
}

fn random_site(random: &mut Random) -> Site {
    let flag = random.chance(70);
    let power = match random.index(8) {
        0 => random.pick(&[1, 14, 15]),
        1 => random.pick(&[16, 17, 256, 65_536]),
        2 => random.pick(&[999_999, 1_000_000]),
        _ => random.between(16, 1_000_000),
    };
    let discount = match random.index(4) {
        0 => 0,
        1 => random.pick(&[1, 100, 250, 500, 999, 1_000]),
        _ => random.between(0, 1_000),
    };
    Site {
        power: power as u32,
        flag: flag as u32,
        compensation: if flag { random_device(random) } else { 0 },
        motors: if flag { random_device(random) } else { 0 },
        discount: discount as u32,
    }
}

/// Q or P.
fn random_device(random: &mut Random) -> u32 {
    let value = match random.index(5) {
        0 => 0,
        1 => random.between(0, 5),
        2 => random.pick(&[19_999, 20_000]),
        _ => random.between(0, 20_000),
    };
    value as u32
}

fn random_lines(random: &mut Random, ends: &[(u64, u64)]) -> Vec<Line> {
    let scale = random.pick(&SCALES);
    let eerp_style = random.index(5);
    let mut lines = Vec::new();
    for (from, to) in ends {
        let active = random_reading(random, scale);
        let generated = random_reading(random, scale);
        let night = if random.chance(20) { generated } else { random.between(0, generated) };
        lines.push(Line {
            from: *from as u32,
            to: *to as u32,
            meters: 0,
            eerp: random_eerp(random, eerp_style),
            active: active as u32,
            reactive: random_reactive(random, scale, active) as u32,
            generated: generated as u32,
            night: night as u32,
            active_generated: 0,
        });
    }
    set_meters(random, &mut lines);
    lines
}

pub fn random_reading(random: &mut Random, scale: Scale) -> u64 {
    match scale {
        Scale::Tiny => random.between(0, 30),
        Scale::AroundThousand => random.between(0, 1_300),
        Scale::Round => 500 * random.between(0, 40),
        Scale::Large => random.between(0, 10_000_000),
        Scale::Limits => {
            random.pick(&[0, 1, 2, 999, 1_000, 1_001, 65_535, 65_536, 9_999_999, 10_000_000])
        }
        Scale::Mixed => {
            let other = SCALES[random.index(5)];
            random_reading(random, other)
        }
    }
}

/// WQ: of its own, a part of WP, or many times WP.
fn random_reactive(random: &mut Random, scale: Scale, active: u64) -> u64 {
    match random.index(7) {
        0 | 1 => active * random.between(0, 400) / 1_000,
        2 | 3 => active * random.pick(&[250, 251, 500, 800, 801, 1_000]) / 1_000,
        4 => (active * random_high_tangent(random) / 1_000).min(10_000_000),
        _ => random_reading(random, scale),
    }
}

/// A tangent of about 2,000, of about 99,999, or of any size between and a little above.
pub fn random_high_tangent(random: &mut Random) -> u64 {
    match random.index(3) {
        0 => random.pick(&[1_999, 2_000, 2_000, 2_001]),
        1 => random.pick(&[99_998, 99_999, 99_999, 100_000]),
        _ => random.between(2_002, 110_000),
    }
}

/// D.
fn random_eerp(random: &mut Random, style: usize) -> u32 {
    let value = match style {
        0 => random.between(1, 5),
        1 => random.pick(&[1, 5_000]),
        2 => 1_000,
        3 => random.between(600, 800),
        _ => random.between(1, 5_000),
    };
    value as u32
}

/// Sets the meter marks: only 0, 1, 2, 3, 6 and 7 may be.
fn set_meters(random: &mut Random, lines: &mut [Line]) {
    let metering = random.pick(&METERINGS);
    let reactive = REACTIVE_METER;
    let all = REACTIVE_METER | GENERATED_METER | NIGHT_METER;
    for line in lines.iter_mut() {
        let any = random.pick(&[0, 1, 2, 3, 6, 7]);
        line.meters = match metering {
            Metering::Any => any,
            Metering::AllNight | Metering::NightButOne => random.pick(&[all, all, all & !reactive]),
            Metering::ReactiveEverywhere => any | reactive,
            Metering::ReactiveBetweenSites if line.joins_two_sites() => any | reactive,
            Metering::ReactiveBetweenSites => any,
            Metering::None => 0,
        };
    }
    if let Metering::NightButOne = metering {
        let line = random.index(lines.len());
        lines[line].meters = random.pick(&[reactive, reactive | GENERATED_METER]);
    }
}

/// Gives every site a load of its own and lets its inputs carry that and all its transits, so
/// that few sites are cut. Transits go to higher sites or to the network, so from the last site
/// to the first each transit has its readings when its site is reached.
fn make_flows_sensible(random: &mut Random, park: &mut Park) {
    let most = random.pick(&[30, 3_000, 300_000]);
    for line in park.lines.iter_mut().filter(|line| line.to == 0) {
        let active = random.between(0, most / 10);
        set_flow(line, [active, active / 2, active / 4, active / 8]);
    }
    for site in (1..=park.sites.len()).rev() {
        let active = random.between(0, most);
        let tangent = match random.chance(15) {
            true => random_high_tangent(random),
            false => random.between(0, 1_200),
        };
        // All sites together stay below the most of a reading.
        let reactive = (active * tangent / 1_000).min(500_000);
        let generated = random.between(0, most / 2);
        let load = [active, reactive, generated, generated / 3];
        carry(&mut park.lines, site, load);
    }
}

/// Shares a site's load and its transits' readings among its inputs.
fn carry(lines: &mut [Line], site: usize, load: [u64; 4]) {
    let mut needed = load;
    for line in lines.iter().filter(|line| line.from as usize == site) {
        let flow = [line.active, line.reactive, line.generated, line.night];
        for (need, reading) in needed.iter_mut().zip(flow) {
            *need += reading as u64;
        }
    }
    let inputs = lines.iter().filter(|line| line.to as usize == site).count() as u64;
    for (index, line) in lines.iter_mut().filter(|line| line.to as usize == site).enumerate() {
        let share = needed.map(|need| {
            if index == 0 {
                need - need / inputs * (inputs - 1)
            } else {
                need / inputs
            }
        });
        set_flow(line, share);
    }
}

fn set_flow(line: &mut Line, [active, reactive, generated, night]: [u64; 4]) {
    line.active = active as u32;
    line.reactive = reactive as u32;
    line.generated = generated as u32;
    line.night = night.min(generated) as u32;
}

/// A reading without its meter must be 0 (rule 18).
fn clear_unmetered(lines: &mut [Line]) {
    for line in lines {
        if !line.measures_reactive() {
            line.reactive = 0;
        }
        if !line.measures_generated() {
            line.generated = 0;
        }
        if !line.measures_night() {
            line.night = 0;
        }
    }
}
