//! What is refused, and in which order (01, "Where each thing is checked"; 02, R-2, R-5 and R-8):
//! rules 1 to 19 and 23 to 27, of a file and of a list of its numbers (02, R-1). Rules 20 to 22 belong
//! to the calls, in calculator.rs.

use crate::layout::{Version, LEAST_BYTES};
use crate::list::HEADER_NUMBERS;
use crate::park::{Generator, Header, Line, Park, Site, MONTH_HOURS};

/// A refusal: its number in the table, and its place, which is the site, line or generator counted
/// from 1 for 10 to 19, 23, 24, 26 and 27, else 0.
#[derive(Clone, Copy, Debug, PartialEq, Eq)]
pub struct Refusal {
    pub number: u64,
    pub place: u64,
}

/// Refuses with this number and place if the condition holds.
pub fn refuse_if(condition: bool, number: u64, place: usize) -> Result<(), Refusal> {
    if condition {
        return Err(Refusal { number, place: place as u64 });
    }
    Ok(())
}

/// The rules that R-2 and R-8 (02) changed: former.rs and former_stations.rs have them as they were.
pub struct ChangedRules {
    /// Rules 14, 23 and 24: what refuses the two ends of a line, given its place and the number of
    /// sites.
    pub ends: fn(&Line, usize, usize) -> Result<(), Refusal>,
    /// Rule 11: the largest flag of a version.
    pub most_flag: fn(Version) -> u32,
    /// Rules 12 and 26: whether a site has devices, by its flag.
    pub devices: fn(&Site) -> bool,
}

/// Those of now.
pub const RULES: ChangedRules =
    ChangedRules { ends: check_ends, most_flag: Version::most_flag, devices: Site::has_devices };

/// The park of an accepted file, or the first refusal met.
pub fn accepted_park(file: &[u8]) -> Result<Park, Refusal> {
    park_of_file(file, &RULES)
}

/// The park of an accepted list, or the first refusal met.
pub fn listed_park(numbers: &[u32]) -> Result<Park, Refusal> {
    park_of_list(numbers, &RULES)
}

/// A file held to the table with these rules: the header and the length, then each site, then each
/// line, then each generator, then 19.
pub fn park_of_file(file: &[u8], rules: &ChangedRules) -> Result<Park, Refusal> {
    refuse_if(file.len() < LEAST_BYTES, 1, 0)?;
    refuse_if(&file[0..3] != b"PRK", 2, 0)?;
    let version = Version::of_file(file).ok_or(Refusal { number: 3, place: 0 })?;
    let header = Header::of_file(file, version);
    check_header(&header)?;
    refuse_if(file.len() != header.file_bytes(), 9, 0)?;
    let park = Park::from_file(file);
    check_records(&park, rules)?;
    Ok(park)
}

/// A list held to the same, in the same order, as a file of version 1. It has no letters, no version
/// and no generators, so there is nothing for 2, 3 and 25 to 27 to refuse.
pub fn park_of_list(numbers: &[u32], rules: &ChangedRules) -> Result<Park, Refusal> {
    refuse_if(numbers.len() < HEADER_NUMBERS, 1, 0)?;
    let header = Header::of_list(numbers);
    check_header(&header)?;
    refuse_if(numbers.len() != header.list_numbers(), 9, 0)?;
    let park = Park::from_list(numbers);
    check_records(&park, rules)?;
    Ok(park)
}

/// Rules 4 to 8, and 25.
fn check_header(header: &Header) -> Result<(), Refusal> {
    let Header { month, sites, lines, price, hours, generators, .. } = *header;
    refuse_if(!(1..=12).contains(&month), 4, 0)?;
    refuse_if(sites == 0 || sites > 16, 5, 0)?;
    refuse_if(lines == 0 || lines > 64, 6, 0)?;
    refuse_if(price == 0 || price > 2_000_000, 7, 0)?;
    refuse_if(hours > MONTH_HOURS[month as usize - 1], 8, 0)?;
    refuse_if(generators > 32, 25, 0)
}

/// Rules 10 to 19, 23, 24, 26 and 27.
fn check_records(park: &Park, rules: &ChangedRules) -> Result<(), Refusal> {
    for (index, site) in park.sites.iter().enumerate() {
        check_site(site, index + 1, park.version, rules)?;
    }
    for (index, line) in park.lines.iter().enumerate() {
        (rules.ends)(line, index + 1, park.sites.len())?;
        check_line(line, index + 1, park.version)?;
    }
    for (index, generator) in park.generators.iter().enumerate() {
        check_generator(generator, index + 1, park, rules)?;
    }
    check_inputs(park)
}

/// Rules 10 to 13, for one site.
fn check_site(
    site: &Site,
    place: usize,
    version: Version,
    rules: &ChangedRules,
) -> Result<(), Refusal> {
    let most = if (rules.devices)(site) { 20_000 } else { 0 };
    refuse_if(site.power == 0 || site.power > 1_000_000, 10, place)?;
    refuse_if(site.flag > (rules.most_flag)(version), 11, place)?;
    refuse_if(site.compensation > most || site.motors > most, 12, place)?;
    refuse_if(site.discount > 1_000, 13, place)
}

/// Rules 14, 23 and 24, for the ends of one line.
fn check_ends(line: &Line, place: usize, sites: usize) -> Result<(), Refusal> {
    refuse_if(line.from as usize > sites || line.to as usize > sites, 14, place)?;
    refuse_if(line.from == 0 && line.to == 0, 23, place)?;
    refuse_if(line.joins_two_sites() && line.from >= line.to, 24, place)
}

/// What rule 15 refuses.
pub fn wrong_mark(line: &Line, version: Version) -> bool {
    line.meters > version.most_mark() || line.measures_night() && !line.measures_generated()
}

/// Rules 15 to 18, for the rest of one line.
fn check_line(line: &Line, place: usize, version: Version) -> Result<(), Refusal> {
    refuse_if(wrong_mark(line, version), 15, place)?;
    refuse_if(line.eerp == 0 || line.eerp > 5_000, 16, place)?;
    let reactive = [line.reactive, line.generated, line.night];
    let mut readings = [line.active, line.active_generated].into_iter().chain(reactive);
    refuse_if(readings.any(|reading| reading > 10_000_000), 17, place)?;
    let unmetered = line.reactive != 0 && !line.measures_reactive()
        || line.generated != 0 && !line.measures_generated()
        || line.night != 0 && !line.measures_night()
        || line.active_generated != 0 && !line.measures_active_generated();
    refuse_if(unmetered || line.night > line.generated, 18, place)
}

/// What rule 26 refuses: the network, a site there is not, a site without devices.
pub fn wrong_site(generator: &Generator, park: &Park, rules: &ChangedRules) -> bool {
    !park.site(generator.site).is_some_and(rules.devices)
}

/// Rules 26 and 27, for one generator.
fn check_generator(
    generator: &Generator,
    place: usize,
    park: &Park,
    rules: &ChangedRules,
) -> Result<(), Refusal> {
    refuse_if(wrong_site(generator, park, rules), 26, place)?;
    refuse_if(generator.output > 10_000_000, 27, place)
}

/// Rule 19; the place is the lowest site without an input line.
fn check_inputs(park: &Park) -> Result<(), Refusal> {
    for site in 1..=park.sites.len() {
        let fed = park.lines.iter().any(|line| line.to as usize == site);
        refuse_if(!fed, 19, site)?;
    }
    Ok(())
}
