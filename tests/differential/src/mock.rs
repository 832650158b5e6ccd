//! A second path, apart from the calculator, that stands in for the product: it reads raw bytes,
//! gathers all breaches of 01's table and takes the first. Where it finds the records of either
//! version is in mock_layout.rs; its rules for the ends of lines are in mock_ends.rs, that for their
//! marks in mock_marks.rs, those for the flags of sites in mock_flags.rs, those for generators in
//! mock_generators.rs; its steps are in mock_steps.rs, mock_tangents.rs, mock_active.rs, mock_due.rs,
//! mock_surcharge.rs and mock_stations.rs, its calls in mock_calls.rs, and its making of files in
//! mock_encode.rs. It can be told to make one mistake, and, in mock_one_way.rs, to make it by one way
//! to the surcharge alone.

use crate::mistakes::Mistake;
use crate::mock_last::Last;
use crate::product::{Reply, Way, UNWRITTEN};
use crate::steps::Bill;

/// The second path, with at most one mistake, its last refusal and its last bills by each way.
pub struct Mock(pub Option<Mistake>, Last<(u64, u64)>, [Last<Vec<Bill>>; 2]);

pub fn at(file: &[u8], offset: usize, width: usize) -> i64 {
    (0..width).map(|byte| (file[offset + byte] as i64) << (8 * byte)).sum()
}

/// Hours by the calendar of a leap year; summer time takes one from March, October gets it back.
fn hours(month: i64) -> i64 {
    let days = 30 + (month + month / 8) % 2 - (month == 2) as i64;
    24 * days - (month == 3) as i64 + (month == 10) as i64
}

impl Mock {
    pub fn new(mistake: Option<Mistake>) -> Mock {
        Mock(mistake, Last::default(), Default::default())
    }

    pub fn makes(&self, mistake: Mistake) -> bool {
        self.0 == Some(mistake)
    }

    /// The refusal of a file, as number and place; 0 and 0 if there is none.
    pub fn refusal(&self, file: &[u8]) -> (u64, u64) {
        self.1.answer(file, || self.first_refusal(file))
    }

    /// The bills of all sites of an accepted file.
    pub fn bills(&self, way: Way, file: &[u8]) -> Vec<Bill> {
        self.2[way as usize].answer(file, || self.work_out(way, file))
    }

    fn first_refusal(&self, file: &[u8]) -> (u64, u64) {
        let header = self.header_refusal(file);
        if header != 0 {
            return (header, 0);
        }
        let mut found = Vec::new();
        for (place, site) in (1..).zip(self.sites(file)) {
            let breaches = self.site_breaches(site, self.is_second(file));
            found.extend(breaches.map(|number| (2, place, number)));
        }
        for (place, line) in (1..).zip(self.lines(file)) {
            let breaches = self.line_breaches(line, file[6], self.is_second(file));
            found.extend(breaches.map(|number| (self.stage(number), place, number)));
        }
        for (place, generator) in (1..).zip(self.generators(file)) {
            let breaches = self.generator_breaches(file, generator);
            found.extend(breaches.map(|number| (self.generator_stage(number), place, number)));
        }
        let unfed = (1..=file[6]).filter(|site| self.lines(file).all(|line| line[1] != *site));
        let unfed = unfed.filter(|site| !self.feeds_itself(file, *site));
        let least = if self.makes(Mistake::HighestUnfedSite) { unfed.max() } else { unfed.min() };
        found.extend(least.map(|site| (7, site as u64, 19)));
        match found.into_iter().min_by_key(|(stage, place, _)| (*stage, *place)) {
            None if self.makes(Mistake::RefusesEverything) => (9, 0),
            None if self.makes(Mistake::TangentRefusedAboveLimit) => {
                self.tangent_refusal(file, 99_999)
            }
            None => (0, 0),
            Some((_, place, number @ (14..=18 | 23 | 24)))
                if self.makes(Mistake::LinePlaceFromZero) =>
            {
                (number, place - 1)
            }
            Some((2, _, number)) if self.makes(Mistake::SitePlaceLost) => (number, 0),
            Some((_, _, number @ (23 | 24))) if self.makes(Mistake::EndsPlaceLost) => (number, 0),
            Some((_, place, number @ (26 | 27))) => {
                (number, self.generator_place(file, place as usize))
            }
            Some((_, place, number)) => (number, place),
        }
    }

    /// When a line's rule is looked at; sites are looked at in stage 2, rule 19 in stage 7.
    fn stage(&self, number: u64) -> u64 {
        match (self.0, number) {
            (Some(Mistake::LinesBeforeSites), _) => 1,
            (Some(Mistake::EndsOfAllLinesFirst), 14 | 23 | 24) => 3,
            _ => 4,
        }
    }

    fn header_refusal(&self, file: &[u8]) -> u64 {
        if file.len() < self.least_bytes(file) {
            return 1;
        }
        let (month, sites, lines) = (at(file, 5, 1), at(file, 6, 1), at(file, 7, 1));
        let more = (self.makes(Mistake::March744Hours) && month == 3) as i64;
        let length = self.length(file);
        let longer = file.len() > length && !self.makes(Mistake::LongerFileAccepted);
        let mut sound = [
            (2, file.starts_with(b"PRK")),
            (3, self.is_version(self.version(file))),
            (4, (1..=12).contains(&month)),
            (5, (1..=16).contains(&sites)),
            (6, (1..=64).contains(&lines)),
            (7, (1..=2_000_000).contains(&at(file, 8, 4))),
            (8, at(file, 12, 2) <= hours(month) + more),
            (25, !self.too_many_generators(file)),
            (9, file.len() >= length && !longer),
        ];
        if self.makes(Mistake::VersionBeforeLetters) && !sound[1].1 {
            return 3;
        }
        self.misplace_count(&mut sound);
        sound.iter().find(|(_, sound)| !sound).map_or(0, |(number, _)| *number)
    }

    fn site_breaches(&self, site: &[u8], second: bool) -> impl Iterator<Item = u64> {
        let mut rows = [
            (10, !(1..=1_000_000).contains(&at(site, 0, 4))),
            (11, self.flag_breached(site[4], second)),
            (12, self.devices_breached(site)),
            (13, at(site, 9, 2) > 1_000),
        ];
        if self.makes(Mistake::FlagAfterDevices) {
            rows.swap(1, 2);
        }
        rows.into_iter().filter(|(_, breached)| *breached).map(|(number, _)| number)
    }

    fn line_breaches(&self, line: &[u8], sites: u8, second: bool) -> impl Iterator<Item = u64> {
        let mark = line[2];
        let [active, reactive, generated, night] = self.readings(line);
        let [above, network, out_of_order] = self.ends_breached(line[0], line[1], sites);
        let night_above = night > generated && !self.makes(Mistake::NightAboveGeneratedAccepted);
        let unmetered = [(1, reactive), (2, generated), (4, night)]
            .iter()
            .any(|(meter, reading)| mark & meter == 0 && *reading != 0);
        let unmetered = unmetered && !self.makes(Mistake::ReadingWithoutMeterAccepted);
        let [fifth_above, fifth_unmetered] = self.active_generation_breached(line);
        let most = 10_000_000 + self.makes(Mistake::ReadingLimitOneHigher) as i64;
        let mut rows = [
            (14, above),
            (23, network),
            (24, out_of_order),
            (15, self.mark_breached(mark, second)),
            (16, !(1..=5_000).contains(&at(line, 3, 2))),
            (17, active.max(reactive).max(generated).max(night) > most || fifth_above),
            (18, unmetered || night_above || fifth_unmetered),
        ];
        self.misplace_ends(&mut rows);
        self.misplace_mark(&mut rows);
        rows.into_iter().filter(|(_, breached)| *breached).map(|(number, _)| number)
    }

    pub fn reply(&self, (number, place): (u64, u64)) -> Reply {
        let unwritten = number == 0 && self.makes(Mistake::PlaceLeftUnwritten);
        Reply { number, place: if unwritten { UNWRITTEN } else { place } }
    }
}
