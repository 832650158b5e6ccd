//! Deliberate breaches of the rules that R-5 (02) brought or changed: 25, 26 and 27, lengths of
//! either version, the other version's number, and rules 17 and 18 for the active generation.

use crate::breaches::Breach;
use crate::layout::{Version, ACTIVE_GENERATED_OFFSET, GENERATORS_OFFSET, LEAST_BYTES};
use crate::park::Park;

/// Lengths that rule 9 refuses: a header alone, wrong by one byte, by a record or by what 16 bits
/// would not show, without the generators, and that of the other version.
pub fn wrong_lengths(park: &Park) -> impl Iterator<Item = usize> {
    let (sites, lines) = (park.sites.len(), park.lines.len());
    let right = park.to_file().len();
    let none = |version: Version| version.file_bytes(sites, lines, 0);
    let mut lengths = vec![LEAST_BYTES, right - 1, right + 1, right + 0x1_0000];
    match park.version {
        Version::One => lengths.push(none(Version::Two)),
        Version::Two => {
            lengths.extend([15, right - 5, right + 5, right - 25, right + 25]);
            lengths.extend([none(Version::One), none(Version::Two)]);
        }
    }
    lengths.sort();
    lengths.dedup();
    lengths.into_iter().filter(move |length| *length != right)
}

/// Rules 25 and 9, by the number of generators and by the other version's number. A file that gets
/// the other version's number gets a number of generators too, or keeps its own.
pub fn of_counts(park: &Park) -> Vec<Breach> {
    let right = park.generators.len();
    let breach = |number, version: Version, count: usize| {
        let version = (3, 2, version.number() as u64);
        Breach::new(number, 0, vec![version, (GENERATORS_OFFSET, 1, count as u64)])
    };
    match park.version {
        Version::One => [(9, 0), (9, 32), (25, 33), (25, 255)]
            .map(|(number, count)| breach(number, Version::Two, count))
            .to_vec(),
        Version::Two => {
            let counts = [0, 1, right.wrapping_sub(1), right + 1, 32];
            let wrong = counts.into_iter().filter(|count| *count != right && *count <= 32);
            let mut breaches: Vec<_> = wrong.map(|count| breach(9, Version::Two, count)).collect();
            breaches.extend([33, 34, 64, 255].map(|count| breach(25, Version::Two, count)));
            let length = Some(park.generator_offset(33 + 1));
            breaches.push(Breach { length, ..breach(25, Version::Two, 33) });
            breaches.push(breach(9, Version::One, right));
            breaches
        }
    }
}

/// Rules 17 and 18 at one line, for the active generation of version 2.
pub fn of_active_generation(park: &Park, place: usize) -> Vec<Breach> {
    if park.version == Version::One {
        return Vec::new();
    }
    let start = park.line_offset(place);
    let mark = park.lines[place - 1].meters as u64;
    let breach = |(number, mark, reading)| {
        let reading = (start + ACTIVE_GENERATED_OFFSET, 4, reading);
        Breach::new(number, place, vec![(start + 2, 1, mark), reading])
    };
    let above = [(17, mark | 8, 10_000_001), (17, mark & 7, 10_000_001), (17, mark, 0xFFFF_FFFF)];
    let unmetered = [1, 0x1_0000, 10_000_000].map(|reading| (18, mark & 7, reading));
    above.into_iter().chain(unmetered).map(breach).collect()
}

/// Rules 26 and 27 at one generator.
pub fn of_generator(park: &Park, place: usize) -> Vec<Breach> {
    let start = park.generator_offset(place);
    let next = park.sites.len() as u64 + 1;
    let site = |site: u64| Breach::new(26, place, vec![(start, 1, site)]);
    let output = |output: u64| Breach::new(27, place, vec![(start + 1, 4, output)]);
    let mut breaches = vec![site(0), site(next), site(255)];
    let flagless = park.sites.iter().position(|site| !site.has_devices());
    breaches.extend(flagless.map(|index| site(index as u64 + 1)));
    breaches.extend([10_000_001, 0x100_0000, 0xFFFF_FFFF].map(output));
    breaches.extend(of_flag(park, place));
    breaches
}

/// Rule 26 at one generator, as its site, a station or not (02, R-8), has no devices any more; none
/// if an earlier generator is at the same site.
fn of_flag(park: &Park, place: usize) -> Vec<Breach> {
    let site = park.generators[place - 1].site;
    if park.generators[..place - 1].iter().any(|one| one.site == site) {
        return Vec::new();
    }
    let start = park.version.site_offset(site as usize);
    let breach = |flag| {
        let patches = vec![(start + 4, 1, flag), (start + 5, 2, 0), (start + 7, 2, 0)];
        Breach::new(26, place, patches)
    };
    [0, 2].map(breach).to_vec()
}
