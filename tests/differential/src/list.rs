//! The list of a park's numbers (02, R-1): five of the header (month, s, n, T, t), five for each
//! site, eight for each line, in the order of the file. Each may be any number of 32 bits.

use crate::layout::{Version, LEAST_BYTES};
use crate::park::{Header, Line, Park, Site};

pub const HEADER_NUMBERS: usize = 5;
pub const SITE_NUMBERS: usize = 5;
pub const LINE_NUMBERS: usize = 8;

/// A site from its five fields in the paper's order: power, flag, Q, P, h.
pub fn site([power, flag, compensation, motors, discount]: [u32; SITE_NUMBERS]) -> Site {
    Site { power, flag, compensation, motors, discount }
}

/// A line from its eight fields in the paper's order: from, to, mark, D, WP, WQ, WG, WN.
pub fn line(fields: [u32; LINE_NUMBERS]) -> Line {
    let [from, to, meters, eerp, active, reactive, generated, night] = fields;
    Line { from, to, meters, eerp, active, reactive, generated, night, active_generated: 0 }
}

fn site_fields(site: &Site) -> [u32; SITE_NUMBERS] {
    [site.power, site.flag, site.compensation, site.motors, site.discount]
}

fn line_fields(line: &Line) -> [u32; LINE_NUMBERS] {
    let [from, to, meters, eerp] = [line.from, line.to, line.meters, line.eerp];
    [from, to, meters, eerp, line.active, line.reactive, line.generated, line.night]
}

/// Where the numbers of a site begin, sites counted from 1.
pub fn site_start(site: usize) -> usize {
    HEADER_NUMBERS + SITE_NUMBERS * (site - 1)
}

/// Where the numbers of a line begin, lines counted from 1, in a list of `sites` sites.
pub fn line_start(sites: usize, line: usize) -> usize {
    HEADER_NUMBERS + SITE_NUMBERS * sites + LINE_NUMBERS * (line - 1)
}

impl Header {
    /// The header of a list that is long enough for one.
    pub fn of_list(numbers: &[u32]) -> Header {
        let [month, sites, lines, price, hours] = *numbers.first_chunk().expect("five numbers");
        Header { version: Version::One, month, sites, lines, price, hours, generators: 0 }
    }

    /// How many numbers a list with this header has.
    pub fn list_numbers(&self) -> usize {
        line_start(self.sites as usize, self.lines as usize + 1)
    }
}

impl Park {
    /// The list of a park of version 1.
    pub fn to_list(&self) -> Vec<u32> {
        assert_eq!(self.version, Version::One);
        let (sites, lines) = (self.sites.len() as u32, self.lines.len() as u32);
        let mut numbers = vec![self.month, sites, lines, self.price, self.hours];
        numbers.extend(self.sites.iter().flat_map(site_fields));
        numbers.extend(self.lines.iter().flat_map(line_fields));
        numbers
    }

    /// The park of a list whose length fits its two counts; any other length panics.
    pub fn from_list(numbers: &[u32]) -> Park {
        let header = Header::of_list(numbers);
        assert_eq!(numbers.len(), header.list_numbers());
        let (sites, lines) =
            numbers[HEADER_NUMBERS..].split_at(SITE_NUMBERS * header.sites as usize);
        Park {
            version: header.version,
            month: header.month,
            price: header.price,
            hours: header.hours,
            sites: sites.as_chunks().0.iter().copied().map(site).collect(),
            lines: lines.as_chunks().0.iter().copied().map(line).collect(),
            generators: Vec::new(),
        }
    }
}

/// The list of a file, whether the table accepts it or not; none if it does not have the letters
/// and the length of a park file of version 1.
pub fn list_of_file(file: &[u8]) -> Option<Vec<u32>> {
    let sound = file.len() >= LEAST_BYTES
        && file.starts_with(b"PRK\x01\x00")
        && file.len() == Header::of_file(file, Version::One).file_bytes();
    sound.then(|| Park::from_file(file).to_list())
}
