//! Damaged files, made from an accepted one: bits turned, fields set past their limits, other ends of
//! lines, other lengths, random bytes, and breaches of one or two rules at any place. What only R-5
//! (02) can damage is in generator_damage.rs, and the flags of sites are in station_damage.rs.

use crate::breaches::{of_header, of_inputs, of_line, of_site, Breach, FILE_RULES};
use crate::generator_breaches::of_generator;
use crate::generator_damage::{damage_generators, other_version};
use crate::layout::Version;
use crate::park::Park;
use crate::random::Random;
use crate::station_damage::damage_flags;

const MOST_BYTES: usize = 70_000;

/// A file made from this park's; it may happen to be accepted still.
pub fn random_damage(random: &mut Random, park: &Park) -> Vec<u8> {
    let mut file = park.to_file();
    if park.version == Version::Two && random.chance(40) {
        damage_generators(random, park, &mut file);
        return file;
    }
    if random.chance(12) {
        damage_flags(random, park, &mut file);
        return file;
    }
    match random.index(14) {
        0 => turn_bits(random, &mut file),
        1 => set_byte(random, &mut file),
        2 => file.truncate(random.index(file.len())),
        3 => lengthen(random, &mut file),
        4 => file = random_bytes(random, 0),
        5 => {
            file.truncate(park.version.header_bytes());
            file.extend(random_bytes(random, 200));
        }
        6 => {
            let start = park.version.header_bytes();
            randomize_some(random, &mut file[start..]);
        }
        7 => random_breach(random, park).apply(&mut file),
        8 => set_ends(random, park, &mut file),
        9 => other_version(random, park, &mut file),
        _ => two_breaches(random, park, &mut file),
    }
    file
}

/// Breaches of two rules, the second one where the first left its bytes.
fn two_breaches(random: &mut Random, park: &Park, file: &mut Vec<u8>) {
    random_breach(random, park).apply(file);
    let second = random_breach(random, park);
    if second.patches.iter().all(|(offset, width, _)| offset + width <= file.len()) {
        second.apply(file);
    }
}

/// A breach of one of the rules that a file can break, each about as often.
pub fn random_breach(random: &mut Random, park: &Park) -> Breach {
    let site = random.index(park.sites.len()) + 1;
    let line = random.index(park.lines.len()) + 1;
    let number = match random.pick(&FILE_RULES) {
        26 | 27 if park.generators.is_empty() => 19,
        number => number,
    };
    let choices = match number {
        1..=9 | 25 => of_header(park),
        10..=13 => of_site(park, site),
        14..=18 | 23 | 24 => of_line(park, line),
        26 | 27 => of_generator(park, random.index(park.generators.len()) + 1),
        _ => vec![of_inputs(park, site)],
    };
    let of_number: Vec<_> = choices.into_iter().filter(|one| one.number == number).collect();
    of_number[random.index(of_number.len())].clone()
}

fn turn_bits(random: &mut Random, file: &mut [u8]) {
    for _ in 0..random.between(1, 4) {
        let byte = random.index(file.len());
        file[byte] ^= 1 << random.index(8);
    }
}

fn set_byte(random: &mut Random, file: &mut [u8]) {
    for _ in 0..random.between(1, 2) {
        let byte = random.index(file.len());
        file[byte] = random.pick(&[0, 1, 2, 4, 7, 8, 16, 17, 64, 65, 127, 128, 255]);
    }
}

/// A few lines with any ends up to two above s, the network often, and some of their marks wrong.
fn set_ends(random: &mut Random, park: &Park, file: &mut [u8]) {
    let sites = park.sites.len();
    for _ in 0..random.between(1, 3) {
        let start = park.line_offset(random.index(park.lines.len()) + 1);
        for end in &mut file[start..start + 2] {
            let any = random.index(sites + 3) as u8;
            *end = random.pick(&[0, any, any]);
        }
        if random.chance(30) {
            file[start + 2] = random.pick(&[4, 5, 8, 255]);
        }
    }
}

fn lengthen(random: &mut Random, file: &mut Vec<u8>) {
    let added = match random.index(4) {
        0 => 1,
        1 => random.pick(&[5, 11, 21, 25, 256]),
        2 => random.index(300) + 1,
        _ => random.index(MOST_BYTES - file.len()) + 1,
    };
    let filler = random.pick(&[0, 255, file[0]]);
    file.resize(file.len() + added, filler);
}

/// Random bytes of a random length: short mostly, and up to the most now and then; or up to
/// `most` where that is not 0.
fn random_bytes(random: &mut Random, most: usize) -> Vec<u8> {
    let length = match (most, random.index(20)) {
        (0, 0) => random.index(MOST_BYTES + 1),
        (0, 1..=9) => random.index(20),
        (0, _) => random.index(2_000),
        _ => random.index(most + 1),
    };
    (0..length).map(|_| random.next() as u8).collect()
}

/// Random bytes in all the records from some byte on, or in one stretch of them.
fn randomize_some(random: &mut Random, records: &mut [u8]) {
    let start = random.index(records.len());
    let end = if random.chance(30) { records.len() } else { (start + 8).min(records.len()) };
    for byte in &mut records[start..end] {
        *byte = random.next() as u8;
    }
}
