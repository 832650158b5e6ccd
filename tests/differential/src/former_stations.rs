//! The replies and bills of before R-8 (02): rule 11 admitted the flags 0 and 1 alone, rules 12 and 26
//! and step 6 took every other flag than 0 for devices, and no site was a power station; the other
//! rules and steps are those of now. Every file must be replied to as was the same file without the
//! marks, and every site billed as was the same site without its mark, but that a station owes
//! neither Pg nor P2, and has P3 of its Pc alone.

use crate::calculator::Refusal;
use crate::compare::{reply_to, Tester};
use crate::expect::{P2, P3, PC, PG, TOTAL};
use crate::layout::Version;
use crate::park::{Header, Park, Site, STATION};
use crate::product::{Reply, Way};
use crate::rules::{park_of_file, ChangedRules, RULES};
use crate::steps::{work_out_by, Bill, ChangedSteps, STEPS};

const STATION_RULES: ChangedRules = ChangedRules { most_flag: |_| 1, devices: flagged, ..RULES };

const STATION_STEPS: ChangedSteps = ChangedSteps { devices: flagged, station: |_| false, ..STEPS };

fn flagged(site: &Site) -> bool {
    site.flag != 0
}

/// Where the flags of a file of version 2 stand; none of any other, nor of one whose length does not
/// fit its counts.
pub fn flag_offsets(file: &[u8]) -> impl Iterator<Item = usize> {
    let sites = match Version::of_file(file) {
        Some(Version::Two) if file.len() >= Version::Two.header_bytes() => {
            let header = Header::of_file(file, Version::Two);
            if file.len() == header.file_bytes() {
                header.sites as usize
            } else {
                0
            }
        }
        _ => 0,
    };
    (1..=sites).map(|site| Version::Two.site_offset(site) + 4)
}

/// What was said of a file without its marks.
pub fn of_file(file: &[u8]) -> Result<(), Refusal> {
    let mut unmarked = file.to_vec();
    for offset in flag_offsets(file) {
        if let 2 | 3 = unmarked[offset] {
            unmarked[offset] -= 2;
        }
    }
    park_of_file(&unmarked, &STATION_RULES).map(|_| ())
}

/// A park without its marks.
pub fn unmarked(park: &Park) -> Park {
    let unmarked = |site: &Site| Site { flag: site.flag & !STATION, ..*site };
    Park { sites: park.sites.iter().map(unmarked).collect(), ..park.clone() }
}

/// The bills that all sites of an accepted park had without their marks.
pub fn bills(park: &Park) -> Vec<Bill> {
    let park = unmarked(park);
    (1..=park.sites.len()).map(|site| work_out_by(&park, site, &STATION_STEPS).bill()).collect()
}

/// What is left of a former bill of a site, if that is a station now.
pub fn left(site: &Site, former: &Bill) -> Bill {
    let mut left = *former;
    if site.is_station() {
        left[PG] = 0;
        left[P2] = 0;
        left[P3] = (left[PC] * site.discount as u64 + 500) / 1_000;
        left[TOTAL] = left[PC] - left[P3];
    }
    left
}

impl Tester<'_> {
    /// Compares a reply of the product with what was said before.
    pub fn same_reply_without_marks(&mut self, former: Result<(), Refusal>, reply: Reply) {
        self.same(format_args!("as before R-8, without marks"), reply_to(&former), reply);
    }

    /// Compares bills of the product by a way with what is left of those of before.
    pub fn same_but_stations(&mut self, way: Way, park: &Park, former: &[Bill], bills: &[Bill]) {
        for ((site, former), bill) in park.sites.iter().zip(former).zip(bills) {
            let what = format_args!("bill {way} as before R-8, flag {}", site.flag);
            self.same(what, left(site, former), *bill);
        }
    }
}
