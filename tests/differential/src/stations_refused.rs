//! How often the generated files and lists met each cause and each order of the refusals that R-8 (02)
//! changed.

use crate::layout::Version;
use crate::park::{Generator, Park, Site};
use crate::rules::{listed_park, Refusal};
use crate::station_branches::{Flags, ListFlags, FLAGS_NAMES, LIST_FLAGS_NAMES};

const MOST_READING: u32 = 10_000_000;

pub struct FlagsCoverage {
    files: [u64; FLAGS_NAMES.len()],
    lists: [u64; LIST_FLAGS_NAMES.len()],
}

impl Default for FlagsCoverage {
    fn default() -> FlagsCoverage {
        FlagsCoverage { files: [0; FLAGS_NAMES.len()], lists: [0; LIST_FLAGS_NAMES.len()] }
    }
}

/// Whether Q or P is not 0.
fn installed(site: &Site) -> bool {
    site.compensation != 0 || site.motors != 0
}

/// What rule 12 refuses of a site with flag 2.
fn devices_of_two(site: &Site) -> bool {
    site.flag == 2 && installed(site)
}

impl FlagsCoverage {
    fn count(&mut self, flags: Flags, met: bool) {
        self.files[flags as usize] += met as u64;
    }

    /// Counts a refused file.
    pub fn file(&mut self, file: &[u8], refusal: Refusal) {
        if refusal.place == 0 {
            return;
        }
        let park = Park::from_file(file);
        let index = refusal.place as usize - 1;
        match (park.version, refusal.number) {
            (Version::One, 11) => self.first(&park.sites[index]),
            (Version::One, _) => {}
            (Version::Two, 10..=13) => self.site(&park, refusal.number, index),
            (Version::Two, 26 | 27) => self.generator(&park, refusal.number, index),
            (Version::Two, 19) => self.count(Flags::Unfed, park.sites[index].is_station()),
            (Version::Two, _) => {
                let flags = park.generators.iter().map(|one| park.site(one.site));
                let at_two = flags.flatten().any(|site| site.flag == 2);
                self.count(Flags::LineFirst, at_two);
            }
        }
    }

    /// A site of version 1 refused by 11.
    fn first(&mut self, site: &Site) {
        self.count(Flags::OneTwo, site.flag == 2);
        self.count(Flags::OneThree, site.flag == 3);
        self.count(Flags::OneAbove, site.flag > 3);
        self.count(Flags::OneDevices, devices_of_two(site));
    }

    /// A site of version 2 refused by 10 to 13.
    fn site(&mut self, park: &Park, number: u64, index: usize) {
        let (site, later) = (&park.sites[index], &park.sites[index + 1..]);
        let generator = park.generators.iter().any(|one| one.site as usize == index + 1);
        match number {
            10 => self.count(Flags::PowerFirst, site.flag > 3),
            11 => {
                let then_devices = later.iter().any(devices_of_two);
                self.count(Flags::Four, site.flag == 4);
                self.count(Flags::FiveToSeven, (5..=7).contains(&site.flag));
                self.count(Flags::Above, site.flag > 7 && site.flag & 3 == 0);
                self.count(Flags::AboveMarked, site.flag > 7 && site.is_station());
                self.count(Flags::FlagDevices, !site.has_devices() && installed(site));
                self.count(Flags::FlagGenerator, generator);
                self.count(Flags::FlagThenDevices, then_devices);
            }
            12 => self.devices(site, later, generator),
            _ => self.count(Flags::DiscountOfStation, site.is_station()),
        }
    }

    /// A site of version 2 refused by 12.
    fn devices(&mut self, site: &Site, later: &[Site], generator: bool) {
        let (compensation, motors) = (site.compensation, site.motors);
        let two = site.flag == 2;
        self.count(Flags::Flagless, site.flag == 0);
        self.count(Flags::Compensation, two && motors == 0);
        self.count(Flags::Motors, two && compensation == 0);
        self.count(Flags::BothDevices, two && compensation != 0 && motors != 0);
        self.count(Flags::JustDevices, two && compensation + motors == 1);
        self.count(Flags::LimitOfThree, site.flag == 3);
        self.count(Flags::DevicesDiscount, two && site.discount > 1_000);
        self.count(Flags::DevicesGenerator, two && generator);
        self.count(Flags::DevicesThenFlag, two && later.iter().any(|site| site.flag > 3));
    }

    /// A generator refused by 26 or 27.
    fn generator(&mut self, park: &Park, number: u64, index: usize) {
        let (one, later) = (&park.generators[index], &park.generators[index + 1..]);
        let flag = |one: &Generator| park.site(one.site).map(|site| site.flag);
        let fed = |site| park.lines.iter().any(|line| line.to == site);
        let unfed = (1..=park.sites.len() as u32).any(|site| !fed(site));
        let two = number == 26 && flag(one) == Some(2);
        self.count(Flags::GeneratorOfTwo, two);
        self.count(Flags::GeneratorOfTwoLater, two && index > 0);
        self.count(Flags::GeneratorOfTwoReading, two && one.output > MOST_READING);
        self.count(Flags::GeneratorOfTwoUnfed, two && unfed);
        let then_two = later.iter().any(|one| flag(one) == Some(2));
        self.count(Flags::GeneratorThenTwo, number == 27 && then_two);
        self.count(Flags::ReadingOfStation, number == 27 && flag(one) == Some(3));
    }

    /// Counts a list.
    pub fn list(&mut self, numbers: &[u32]) {
        let Err(Refusal { number: 11, place }) = listed_park(numbers) else { return };
        let flag = Park::from_list(numbers).sites[place as usize - 1].flag;
        let mut count = |flags: ListFlags, met: bool| self.lists[flags as usize] += met as u64;
        count(ListFlags::Two, flag == 2);
        count(ListFlags::Three, flag == 3);
        count(ListFlags::Above, (4..=255).contains(&flag));
        count(ListFlags::WideTwo, flag > 255 && matches!(flag & 255, 2 | 3));
    }

    /// Every count with its name.
    pub fn counts(&self) -> impl Iterator<Item = (String, u64)> + '_ {
        let file = |name| format!("generated file, R-8: {name}");
        let list = |name| format!("generated list, R-8: {name}");
        let files = FLAGS_NAMES.iter().map(file).zip(self.files);
        files.chain(LIST_FLAGS_NAMES.iter().map(list).zip(self.lists))
    }
}
