//! How often the generated files met each cause and each order of the refusals that R-5 (02) brought
//! or changed.

use crate::generator_branches::{Refused, REFUSED_NAMES};
use crate::layout::{Version, GENERATORS_OFFSET};
use crate::park::{number_at, Generator, Header, Line, Park, Site};
use crate::rules::{wrong_site, Refusal, RULES};

const MOST_READING: u32 = 10_000_000;

pub struct RefusedCoverage([u64; REFUSED_NAMES.len()]);

impl Default for RefusedCoverage {
    fn default() -> RefusedCoverage {
        RefusedCoverage([0; REFUSED_NAMES.len()])
    }
}

impl RefusedCoverage {
    fn count(&mut self, refused: Refused, met: bool) {
        self.0[refused as usize] += met as u64;
    }

    /// Counts a refused file.
    pub fn file(&mut self, file: &[u8], refusal: Refusal) {
        if refusal.number == 3 {
            self.count(Refused::VersionThree, number_at(file, 3, 2) == 3);
            self.count(Refused::VersionTwoAndMore, file[3] == 2);
        }
        match (Version::of_file(file), refusal.place) {
            (Some(Version::Two), 0) => self.header(file, refusal.number),
            (Some(Version::Two), _) => self.record(&Park::from_file(file), refusal),
            (Some(Version::One), 0) if refusal.number == 9 => self.first(file),
            _ => {}
        }
    }

    /// A file of version 2 that is refused for its header or its length.
    fn header(&mut self, file: &[u8], number: u64) {
        let too_many = file.get(GENERATORS_OFFSET).is_some_and(|count| *count > 32);
        match number {
            1 => self.count(Refused::ThirteenBytes, file.len() == 13),
            4..=7 => self.count(Refused::HeaderFirst, too_many),
            8 => self.count(Refused::HoursFirst, too_many),
            25 => self.too_many(file),
            9 => self.length(file),
            _ => {}
        }
    }

    /// Rule 25.
    fn too_many(&mut self, file: &[u8]) {
        let header = Header::of_file(file, Version::Two);
        let (just, fits) = (header.generators == 33, file.len() == header.file_bytes());
        self.count(Refused::CountFits, just && fits);
        self.count(Refused::CountDoesNotFit, just && !fits);
        self.count(Refused::CountFarAbove, !just);
    }

    /// Rule 9 in version 2.
    fn length(&mut self, file: &[u8]) {
        let header = Header::of_file(file, Version::Two);
        let (length, right) = (file.len(), header.file_bytes());
        let (sites, lines) = (header.sites as usize, header.lines as usize);
        let missing = length == Version::Two.file_bytes(sites, lines, 0);
        self.count(Refused::FourteenBytes, length == 14);
        self.count(Refused::FifteenBytes, length == 15);
        self.count(Refused::OneByteShort, length + 1 == right);
        self.count(Refused::OneByteMore, length == right + 1);
        self.count(Refused::GeneratorShort, length + 5 == right);
        self.count(Refused::GeneratorMore, length == right + 5);
        self.count(Refused::LineShort, length + 25 == right);
        self.count(Refused::LineMore, length == right + 25);
        self.count(Refused::GeneratorsMissing, missing);
        self.count(Refused::LengthOfOne, length == Version::One.file_bytes(sites, lines, 0));
    }

    /// Rule 9 in version 1.
    fn first(&mut self, file: &[u8]) {
        let header = Header::of_file(file, Version::One);
        let (sites, lines) = (header.sites as usize, header.lines as usize);
        let of_two = |count| file.len() == Version::Two.file_bytes(sites, lines, count);
        self.count(Refused::LengthOfTwo, (0..=32).any(of_two));
    }

    /// A file of version 2 that is refused at a site, a line or a generator.
    fn record(&mut self, park: &Park, refusal: Refusal) {
        let (number, index) = (refusal.number, refusal.place as usize - 1);
        let wrong = |one: &Generator| wrong_site(one, park, &RULES) || one.output > MOST_READING;
        let some_wrong = park.generators.iter().any(wrong);
        match number {
            10..=13 => self.count(Refused::SiteFirst, some_wrong),
            14..=18 | 23 | 24 => {
                self.count(Refused::LineFirst, some_wrong);
                self.line(&park.lines[index], number);
            }
            19 => self.count(Refused::Unfed, !park.generators.is_empty()),
            _ => self.generator(park, number, index),
        }
    }

    /// Rules 17 and 18, where the active generation alone breaks them.
    fn line(&mut self, line: &Line, number: u64) {
        let reading = line.active_generated;
        let others = [line.active, line.reactive, line.generated, line.night];
        let alone = others.iter().all(|other| *other <= MOST_READING);
        let unmetered = reading != 0 && !line.measures_active_generated();
        let others_metered = (line.measures_reactive() || line.reactive == 0)
            && (line.measures_generated() || line.generated == 0)
            && (line.measures_night() || line.night == 0)
            && line.night <= line.generated;
        let above = number == 17 && alone;
        self.count(Refused::ReadingJustAbove, above && reading == MOST_READING + 1);
        self.count(Refused::ReadingFarAbove, above && reading > MOST_READING + 1);
        self.count(Refused::ReadingUnmetered, above && unmetered);
        self.count(Refused::Unmetered, number == 18 && unmetered && others_metered);
    }

    /// Rules 26 and 27.
    fn generator(&mut self, park: &Park, number: u64, index: usize) {
        let (one, later) = (&park.generators[index], &park.generators[index + 1..]);
        let sites = park.sites.len() as u32;
        let fed = |site| park.lines.iter().any(|line| line.to == site);
        let unfed = (1..=sites).any(|site| !fed(site));
        let above = |one: &Generator| one.output > MOST_READING;
        let then_site = later.iter().any(|one| wrong_site(one, park, &RULES));
        if number == 26 {
            self.count(Refused::Network, one.site == 0);
            self.count(Refused::NextSite, one.site == sites + 1);
            self.count(Refused::FarSite, one.site > sites + 1);
            let flagless = |site: &Site| site.flag == 0;
            self.count(Refused::Flagless, park.site(one.site).is_some_and(flagless));
            self.count(Refused::BothWrong, above(one));
            self.count(Refused::SiteThenOutput, later.iter().any(above));
            self.count(Refused::SiteUnfed, unfed);
        } else {
            self.count(Refused::OutputJustAbove, one.output == MOST_READING + 1);
            self.count(Refused::OutputFarAbove, one.output > MOST_READING + 1);
            self.count(Refused::OutputThenSite, then_site);
            self.count(Refused::OutputUnfed, unfed);
        }
        self.count(Refused::FirstGenerator, index == 0 && !later.is_empty());
        self.count(Refused::LastGenerator, index == 31);
    }

    /// Every count with its name.
    pub fn counts(&self) -> impl Iterator<Item = (String, u64)> + '_ {
        let name = |name| format!("generated file, R-5: {name}");
        REFUSED_NAMES.iter().map(name).zip(self.0)
    }
}
