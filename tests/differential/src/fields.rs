//! The fields of a list by their places in it (02, R-1; 01, "The park file" and its table): their
//! widths in the file, which no number of a list is held to, their limits, and what refuses them.

use crate::list::{HEADER_NUMBERS, LINE_NUMBERS, SITE_NUMBERS};

pub struct Field {
    pub name: &'static str,
    /// Bytes in the file.
    pub width: usize,
    /// The largest number that may be accepted; t and the ends may have a lower limit.
    pub most: u32,
    /// The refusal of a number above that.
    pub refusal: u64,
}

const fn field(name: &'static str, width: usize, most: u32, refusal: u64) -> Field {
    Field { name, width, most, refusal }
}

/// The five of the header, the five of a site and the eight of a line.
pub const FIELDS: [Field; 18] = [
    field("month", 1, 12, 4),
    field("s", 1, 16, 5),
    field("n", 1, 64, 6),
    field("T", 4, 2_000_000, 7),
    field("t", 2, 745, 8),
    field("power", 4, 1_000_000, 10),
    field("flag", 1, 1, 11),
    field("Q", 2, 20_000, 12),
    field("P", 2, 20_000, 12),
    field("h", 2, 1_000, 13),
    field("from", 1, 16, 14),
    field("to", 1, 16, 14),
    field("mark", 1, 7, 15),
    field("D", 2, 5_000, 16),
    field("WP", 4, 10_000_000, 17),
    field("WQ", 4, 10_000_000, 17),
    field("WG", 4, 10_000_000, 17),
    field("WN", 4, 10_000_000, 17),
];

/// Which of the fields stands at a place of a list of `sites` sites.
pub fn field_at(place: usize, sites: usize) -> usize {
    let lines = HEADER_NUMBERS + SITE_NUMBERS * sites;
    if place < HEADER_NUMBERS {
        place
    } else if place < lines {
        HEADER_NUMBERS + (place - HEADER_NUMBERS) % SITE_NUMBERS
    } else {
        HEADER_NUMBERS + SITE_NUMBERS + (place - lines) % LINE_NUMBERS
    }
}

impl Field {
    /// The number as its width would hold it.
    pub fn narrowed(&self, number: u32) -> u32 {
        number & u32::MAX >> (32 - 8 * self.width)
    }

    pub fn fits(&self, number: u32) -> bool {
        self.narrowed(number) == number
    }
}

/// Whether every number fits its field, in a list that is long enough for a header.
pub fn all_fit(numbers: &[u32]) -> bool {
    let sites = numbers[1] as usize;
    let fits = |(place, number): (usize, &u32)| FIELDS[field_at(place, sites)].fits(*number);
    numbers.iter().enumerate().all(fits)
}
