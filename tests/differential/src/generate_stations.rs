//! Marks of power stations (02, R-8) for random parks of version 2: nothing else changes with them, so
//! a station may be whatever another site may be.

use crate::park::{Site, STATION};
use crate::random::Random;

/// Marks none of the sites, one, some or all.
pub fn mark_stations(random: &mut Random, sites: &mut [Site]) {
    let one = random.index(sites.len());
    let percent = random.pick(&[0, 0, 0, 30, 60, 100]);
    let mark_one = percent == 0 && random.chance(40);
    for (index, site) in sites.iter_mut().enumerate() {
        if mark_one && index == one || random.chance(percent) {
            site.flag |= STATION;
        }
    }
}
