//! Damage to the flags of sites (02, R-8): any flag, with Q and P or without, at sites with generators
//! and others; and often another breach besides.

use crate::breaches::of_inputs;
use crate::damage::random_breach;
use crate::layout::Version;
use crate::park::Park;
use crate::random::Random;

/// Damages the flags of a few sites of a file, and often something else.
pub fn damage_flags(random: &mut Random, park: &Park, file: &mut Vec<u8>) {
    for _ in 0..random.between(1, 3) {
        let site = random_site(random, park);
        set_flag(random, park, site, file);
    }
    match random.index(6) {
        0 => set_field(random, park, file),
        1 => set_generator(random, park, file),
        2 => of_inputs(park, random.index(park.sites.len()) + 1).apply(file),
        3 => random_breach(random, park).apply(file),
        _ => {}
    }
}

/// A site, counted from 1: any, or often one with a generator.
fn random_site(random: &mut Random, park: &Park) -> usize {
    match park.generators.len() {
        count if count > 0 && random.chance(60) => {
            park.generators[random.index(count)].site as usize
        }
        _ => random.index(park.sites.len()) + 1,
    }
}

/// Another flag: any, or the same without the 1 or with the mark turned; Q and P as they were, both 0,
/// or one of them past a limit.
fn set_flag(random: &mut Random, park: &Park, site: usize, file: &mut [u8]) {
    let start = park.version.site_offset(site);
    let there = file[start + 4];
    let any = random.index(256) as u8;
    let wrong = random.pick(&[4, 4, 5, 6, 7, 8, 16, 130, 255, any]);
    let right = random.pick(&[0, 2, 2, 3]);
    file[start + 4] = random.pick(&[wrong, right, there & 2, there & 2, there ^ 2]);
    let [compensation, motors] = match random.index(6) {
        0 | 1 => [0, 0],
        2 => [random.pick(&[1, 20_000, 20_001]), 0],
        3 => [0, random.pick(&[1, 20_000, 20_001])],
        _ => return,
    };
    file[start + 5..start + 7].copy_from_slice(&u16::to_le_bytes(compensation));
    file[start + 7..start + 9].copy_from_slice(&u16::to_le_bytes(motors));
}

/// Power 0, or h above its limit, at some site.
fn set_field(random: &mut Random, park: &Park, file: &mut [u8]) {
    let start = park.version.site_offset(random_site(random, park));
    match random.chance(50) {
        true => file[start..start + 4].fill(0),
        false => file[start + 9..start + 11].copy_from_slice(&1_001_u16.to_le_bytes()),
    }
}

/// A generator at any site there is, or with a reading past its limit.
fn set_generator(random: &mut Random, park: &Park, file: &mut [u8]) {
    if park.version == Version::One || park.generators.is_empty() {
        return;
    }
    let start = park.generator_offset(random.index(park.generators.len()) + 1);
    match random.chance(60) {
        true => file[start] = random.index(park.sites.len()) as u8 + 1,
        false => file[start + 1..start + 5].copy_from_slice(&10_000_001_u32.to_le_bytes()),
    }
}
