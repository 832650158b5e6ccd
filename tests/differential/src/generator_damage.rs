//! Damage that only R-5 (02) makes possible: the other version, another number of generators, other
//! fields of generators, other marks and active generations of lines; and several of them at once.

use crate::breaches::of_inputs;
use crate::damage::random_breach;
use crate::layout::{Version, ACTIVE_GENERATED_OFFSET, GENERATORS_OFFSET, LEAST_BYTES};
use crate::park::Park;
use crate::random::Random;

/// Damages a file of version 2 in one or more of these ways.
pub fn damage_generators(random: &mut Random, park: &Park, file: &mut Vec<u8>) {
    match random.index(7) {
        0 => change_count(random, park, file),
        1 => other_length(random, park, file),
        2 => set_lines(random, park, file),
        3 => set_generators(random, park, file),
        4 => {
            set_generators(random, park, file);
            set_lines(random, park, file);
        }
        5 => {
            set_generators(random, park, file);
            of_inputs(park, random.index(park.sites.len()) + 1).apply(file);
        }
        _ => {
            set_generators(random, park, file);
            let breach = random_breach(random, park);
            breach.apply(file);
            if breach.length.is_none() {
                change_count(random, park, file);
            }
        }
    }
}

/// The version's number, or its first byte, changed to another; the length is kept, cut to what
/// version 1 needs, or lengthened to what version 2 needs with so many generators.
pub fn other_version(random: &mut Random, park: &Park, file: &mut Vec<u8>) {
    let (sites, lines) = (park.sites.len(), park.lines.len());
    file[3] = match (park.version, random.index(4)) {
        (_, 0) => random.pick(&[0, 3, 4, 255]),
        (Version::One, _) => 2,
        (Version::Two, _) => 1,
    };
    match random.index(4) {
        0 => file.resize(Version::One.file_bytes(sites, lines, 0), 0),
        1 => {
            file[GENERATORS_OFFSET] = random.pick(&[0, 1, 5, 32, 33]);
            let generators = file[GENERATORS_OFFSET] as usize;
            file.resize(Version::Two.file_bytes(sites, lines, generators), 1);
        }
        2 => file[GENERATORS_OFFSET] = random.pick(&[0, 1, 32, 33]),
        _ => {}
    }
}

/// Another number of generators, of all or of just too many; now and then the length fits it.
fn change_count(random: &mut Random, park: &Park, file: &mut Vec<u8>) {
    let right = park.generators.len();
    let any = random.index(256);
    let count = random.pick(&[0, right.saturating_sub(1), right + 1, 32, 33, 33, 34, 255, any]);
    file[GENERATORS_OFFSET] = count as u8;
    if random.chance(50) {
        file.resize(park.generator_offset(count + 1), 1);
    }
}

/// A length that version 2 does not have: a header alone or a part of it, off by one, by a record or
/// by all generators, or as version 1 has it; now and then too many generators besides.
fn other_length(random: &mut Random, park: &Park, file: &mut Vec<u8>) {
    let (sites, lines, right) = (park.sites.len(), park.lines.len(), file.len());
    if random.chance(20) {
        file[GENERATORS_OFFSET] = random.pick(&[33, 255]);
    }
    let length = match random.index(8) {
        0 => random.pick(&[LEAST_BYTES - 1, LEAST_BYTES, LEAST_BYTES, LEAST_BYTES + 1]),
        1 => right - 1,
        2 => right + 1,
        3 => right - random.pick(&[5, 25]),
        4 => right + random.pick(&[5, 25]),
        5 => Version::One.file_bytes(sites, lines, 0),
        6 => Version::One.file_bytes(sites, lines, park.generators.len()),
        _ => Version::Two.file_bytes(sites, lines, 0),
    };
    file.resize(length, 0);
}

/// A reading on its limit, past it, or small.
fn some_reading(random: &mut Random) -> u32 {
    random.pick(&[0, 1, 9_999_999, 10_000_000, 10_000_001, 10_000_001, 0x100_0000, u32::MAX])
}

/// A few lines with other marks or active generations.
fn set_lines(random: &mut Random, park: &Park, file: &mut [u8]) {
    for _ in 0..random.between(1, 2) {
        let start = park.line_offset(random.index(park.lines.len()) + 1);
        if random.chance(50) {
            let any = random.index(256) as u8;
            let toggled = file[start + 2] ^ 8;
            file[start + 2] = random.pick(&[4, 5, 12, 13, 16, toggled, toggled, any]);
        }
        if random.chance(60) {
            let field = start + ACTIVE_GENERATED_OFFSET;
            file[field..field + 4].copy_from_slice(&some_reading(random).to_le_bytes());
        }
    }
}

/// A few generators with any site up to two above s, or with other readings.
fn set_generators(random: &mut Random, park: &Park, file: &mut [u8]) {
    if park.generators.is_empty() {
        return;
    }
    for _ in 0..random.between(1, 4) {
        let count = park.generators.len();
        let one = random.index(count) + 1;
        let start = park.generator_offset(random.pick(&[1, one, one, count]));
        if random.chance(50) {
            let any = random.index(park.sites.len() + 3) as u8;
            let last = park.sites.len() as u8;
            file[start] = random.pick(&[0, any, any, last, last + 1, 255]);
        }
        if random.chance(50) {
            file[start + 1..start + 5].copy_from_slice(&some_reading(random).to_le_bytes());
        }
    }
}
