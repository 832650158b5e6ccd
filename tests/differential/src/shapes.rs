//! Shapes of random parks: how many sites there are, and which lines join them. Every site has an
//! input line, and a line between sites goes from a lower to a higher one (rules 19 and 24).

use crate::random::Random;

/// The site count, and the two ends of each line.
pub struct Shape {
    pub sites: u64,
    pub ends: Vec<(u64, u64)>,
}

const MOST_LINES: usize = 64;

pub fn random_shape(random: &mut Random) -> Shape {
    let sites = match random.index(6) {
        0 => 1,
        1 => 2,
        2 => 16,
        3 => random.between(1, 4),
        _ => random.between(1, 16),
    };
    let mut ends = feeds(random, sites);
    if random.chance(40) {
        add_web(random, sites, &mut ends);
    }
    if random.chance(50) {
        add_lines_back(random, sites, &mut ends);
    }
    if random.chance(25) {
        add_parallel(random, &mut ends);
    }
    if random.chance(10) {
        fill_up(random, sites, &mut ends);
    }
    if random.chance(70) {
        random.shuffle(&mut ends);
    }
    assert!(ends.len() <= MOST_LINES);
    Shape { sites, ends }
}

/// One input line for each site: all from the network, a chain, or a tree.
fn feeds(random: &mut Random, sites: u64) -> Vec<(u64, u64)> {
    let style = random.index(3);
    let mut ends = Vec::new();
    for site in 1..=sites {
        let from = match style {
            0 => 0,
            1 => site - 1,
            _ => random.between(0, site - 1),
        };
        ends.push((from, site));
    }
    ends
}

/// Some more input lines, from anywhere below.
fn add_web(random: &mut Random, sites: u64, ends: &mut Vec<(u64, u64)>) {
    for _ in 0..random.between(1, 2 * sites) {
        let to = random.between(1, sites);
        ends.push((random.between(0, to - 1), to));
    }
}

/// Some lines from a site to the network.
fn add_lines_back(random: &mut Random, sites: u64, ends: &mut Vec<(u64, u64)>) {
    for _ in 0..random.between(1, 3) {
        ends.push((random.between(1, sites), 0));
    }
}

/// Lines beside others, with the same two ends.
fn add_parallel(random: &mut Random, ends: &mut Vec<(u64, u64)>) {
    for _ in 0..random.between(1, 3) {
        ends.push(ends[random.index(ends.len())]);
    }
}

/// Lines of every kind, up to the most there may be. The first ones feed the sites, and stay.
fn fill_up(random: &mut Random, sites: u64, ends: &mut Vec<(u64, u64)>) {
    while ends.len() < MOST_LINES {
        let to = random.between(0, sites);
        let from = if to == 0 { random.between(1, sites) } else { random.between(0, to - 1) };
        ends.push((from, to));
    }
}
