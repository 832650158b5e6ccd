//! Damaged lists (02, R-1), made from an accepted one: numbers set to their limits, past them and
//! to what their fields would narrow, other ends of lines, other flags, numbers dropped, added or
//! exchanged, other counts of sites and lines, random numbers, and breaches of one or two rules.

use crate::fields::{field_at, FIELDS};
use crate::list::{line_start, site_start};
use crate::list_breaches::all_list_breaches;
use crate::park::Park;
use crate::random::Random;

/// A list made from this park's; it may happen to be accepted still.
pub fn random_list_damage(random: &mut Random, park: &Park) -> Vec<u32> {
    let mut numbers = park.to_list();
    match random.index(19) {
        0 => numbers.truncate(random.index(numbers.len())),
        1 => numbers.truncate(random.index(6)),
        2 => {
            numbers.remove(random.index(numbers.len()));
        }
        3 => lengthen(random, &mut numbers),
        4 => change_count(random, park, &mut numbers),
        5 => {
            let place = random.index(numbers.len() - 1);
            numbers.swap(place, place + 1);
        }
        6 => numbers = random_numbers(random, 0),
        7 => {
            numbers.truncate(5);
            numbers.extend(random_numbers(random, 200));
        }
        8 => random_stretch(random, &mut numbers),
        9 => breaches(random, park, &mut numbers),
        10 | 11 => set_ends(random, park, &mut numbers),
        12 => set_flags(random, park, &mut numbers),
        _ => {
            for _ in 0..random.between(1, 2) {
                change_number(random, park, &mut numbers);
            }
        }
    }
    numbers
}

/// A place in the header, in a site or in a line, each about as often.
fn random_place(random: &mut Random, park: &Park) -> usize {
    let (sites, lines) = (park.sites.len(), park.lines.len());
    match random.index(3) {
        0 => random.index(5),
        1 => site_start(random.index(sites) + 1) + random.index(5),
        _ => line_start(sites, random.index(lines) + 1) + random.index(8),
    }
}

fn change_number(random: &mut Random, park: &Park, numbers: &mut [u32]) {
    let place = random_place(random, park);
    let there = numbers[place];
    let most = FIELDS[field_at(place, park.sites.len())].most;
    numbers[place] = match random.index(8) {
        0 => random.pick(&[0, 1]),
        1 => random.pick(&[most - 1, most, most + 1]),
        2 => there.wrapping_add(random.pick(&[0x100, 0x200, 0x8000, 0xFF00])),
        3 | 4 => there.wrapping_add(random.pick(&[0x1_0000, 0x2_0000, 0x100_0000, 0x8000_0000])),
        5 => random.pick(&[u32::MAX, 255, 256, 65_535, 65_536]),
        6 => random.pick(&[there.wrapping_add(1), there.wrapping_sub(1), there ^ 0x80]),
        _ => random.next() as u32 >> random.index(32),
    };
}

/// A few lines with any ends up to two above s, the network often, some of them too wide for a
/// byte, and some of their marks wrong.
fn set_ends(random: &mut Random, park: &Park, numbers: &mut [u32]) {
    let sites = park.sites.len();
    for _ in 0..random.between(1, 3) {
        let start = line_start(sites, random.index(park.lines.len()) + 1);
        for end in &mut numbers[start..start + 2] {
            let any = random.index(sites + 3) as u32;
            *end = random.pick(&[0, any, any]);
            *end += random.pick(&[0, 0, 0, 0, 0, 0, 0, 256, 0x1_0000]);
        }
        if random.chance(30) {
            numbers[start + 2] = random.pick(&[4, 5, 8, 255, 256]);
        }
    }
}

/// A few sites with flags that version 2 has (02, R-8), or near them, some of them too wide for a
/// byte, and some without Q and P.
fn set_flags(random: &mut Random, park: &Park, numbers: &mut [u32]) {
    for _ in 0..random.between(1, 2) {
        let start = site_start(random.index(park.sites.len()) + 1);
        let wide = random.pick(&[0, 0, 0, 256, 0x1_0000, 0x8000_0000]);
        numbers[start + 1] = random.pick(&[2, 2, 3, 3, 4, 255]) + wide;
        if random.chance(50) {
            numbers[start + 2..start + 4].fill(0);
        }
    }
}

fn lengthen(random: &mut Random, numbers: &mut Vec<u32>) {
    let added = match random.index(4) {
        0 => 1,
        1 => random.pick(&[5, 8, 256]),
        _ => random.index(30) + 1,
    };
    for _ in 0..added {
        numbers.push(random.pick(&[0, 1, u32::MAX]));
    }
}

/// Another count of sites or lines; now and then the list fits it.
fn change_count(random: &mut Random, park: &Park, numbers: &mut Vec<u32>) {
    let end = line_start(park.sites.len(), 1);
    match random.index(6) {
        0 if park.sites.len() > 1 => {
            numbers[1] -= 1;
            numbers.drain(end - 5..end);
        }
        1 if park.lines.len() > 1 => {
            numbers[2] -= 1;
            numbers.drain(end..end + 8);
        }
        2 => {
            numbers[2] += 1;
            numbers.extend_from_within(end..end + 8);
        }
        3 => numbers.swap(1, 2),
        _ => {
            let place = random.pick(&[1, 2]);
            let added = random.pick(&[1, 0x100, 0x1_0000, 0x100_0000, 0x8000_0000, u32::MAX]);
            numbers[place] = numbers[place].wrapping_add(added);
        }
    }
}

/// Random numbers of a random count, of all sizes: a few mostly; or up to `most` where that is
/// not 0.
fn random_numbers(random: &mut Random, most: usize) -> Vec<u32> {
    let count = match (most, random.index(2)) {
        (0, 0) => random.index(20),
        (0, _) => random.index(600),
        _ => random.index(most + 1),
    };
    (0..count).map(|_| random.next() as u32 >> random.index(32)).collect()
}

/// A sound header and count, and random numbers in one stretch of the records.
fn random_stretch(random: &mut Random, numbers: &mut [u32]) {
    let start = 5 + random.index(numbers.len() - 5);
    let end = (start + random.index(8) + 1).min(numbers.len());
    for number in &mut numbers[start..end] {
        *number = random.next() as u32 >> random.index(32);
    }
}

/// Breaches of one or two rules.
fn breaches(random: &mut Random, park: &Park, numbers: &mut Vec<u32>) {
    let breaches = all_list_breaches(park);
    for _ in 0..random.between(1, 2) {
        let breach = &breaches[random.index(breaches.len())];
        if breach.changes.iter().all(|(place, _)| *place < numbers.len()) {
            breach.apply(numbers);
        }
    }
}
