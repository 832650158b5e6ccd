//! The rules of the table for plain.rs as one quick test for each record.
//!
//! A good file takes the same way through the quick tests whatever its meters and ends are: a
//! branch on them would be guessed wrongly half of the time. The rules by number, in refusals.rs,
//! are looked at only for a file that fails one.

use crate::records::{Generator, Header, Line, Site};
use crate::records::{DEVICES, MOST, MOST_2, MOST_GENERATORS, MOST_READING};
use crate::records::{GENERATOR_BYTES, LINE_BYTES, LINE_BYTES_2, SITE_BYTES};

/// What the header says, and the records behind it, with lines of this length.
pub struct Parts<'a, const BYTES: usize> {
    pub price: u64,
    pub hours: u64,
    pub sites: &'a [[u8; SITE_BYTES]],
    pub lines: &'a [[u8; BYTES]],
    generators: &'a [[u8; GENERATOR_BYTES]],
}

/// The parts of a file of version 1 or 2.
pub enum Version<'a> {
    One(Parts<'a, LINE_BYTES>),
    Two(Parts<'a, LINE_BYTES_2>),
}

/// The parts of a file if its header, length and sites keep rules 1 to 13 and 25.
#[inline(always)]
pub fn parts(file: &[u8]) -> Option<Version<'_>> {
    let (head, rest) = file.split_first_chunk()?;
    let header = Header::read(head);
    let good = header.hours <= header.most_hours()?
        && header.mark == *b"PRK"
        && header.sites.wrapping_sub(1) < 16
        && header.lines.wrapping_sub(1) < 64
        && header.price.wrapping_sub(1) < 2_000_000;
    match header.version {
        1 if good => records(&header, 0, rest).map(Version::One),
        2 if good => {
            let (generators, rest) = rest.split_first()?;
            records(&header, *generators, rest).map(Version::Two)
        }
        _ => None,
    }
}

/// The parts of a file from its header, the number of its generators and all its records.
#[inline(always)]
fn records<'a, const BYTES: usize>(
    header: &Header,
    generators: u8,
    rest: &'a [u8],
) -> Option<Parts<'a, BYTES>> {
    let (site_bytes, line_bytes) = (header.site_bytes(), header.line_bytes(BYTES));
    let length = site_bytes + line_bytes + GENERATOR_BYTES * generators as usize;
    if generators > MOST_GENERATORS || rest.len() != length {
        return None;
    }
    let (sites, rest) = rest.split_at(site_bytes);
    let (lines, generators) = rest.split_at(line_bytes);
    let sites = sites.as_chunks().0;
    for record in sites {
        if !Site::read(record).is_good::<BYTES>() {
            return None;
        }
    }
    Some(Parts {
        price: header.price as u64,
        hours: header.hours as u64,
        sites,
        lines: lines.as_chunks().0,
        generators: generators.as_chunks().0,
    })
}

/// Whether the lines keep their rules and 19. Hands on each one that keeps its own, with its place
/// counted from 0, though a later one may be refused.
#[inline(always)]
pub fn are_good_lines<const BYTES: usize>(
    parts: &Parts<BYTES>,
    mut each: impl FnMut(&Line, usize),
) -> bool {
    let places = parts.sites.len() + 1;
    // Bit k: site k has an input line. The network needs none.
    let mut fed = 1u32;
    for (index, record) in parts.lines.iter().enumerate() {
        let line = Line::read(record);
        if !line.is_good::<BYTES>(places) {
            return false;
        }
        fed |= 1 << line.to;
        each(&line, index);
    }
    fed == (1 << places) - 1
}

/// Whether the generators keep rules 26 and 27. Hands on each one that does, though a later one may
/// be refused.
#[inline(always)]
pub fn are_good_generators<const BYTES: usize>(
    parts: &Parts<BYTES>,
    mut each: impl FnMut(&Generator),
) -> bool {
    for record in parts.generators {
        let generator = Generator::read(record);
        if !generator.is_good(parts.sites) {
            return false;
        }
        each(&generator);
    }
    true
}

impl Site {
    /// Whether it keeps rules 10 to 13. The version is that of lines of this length.
    #[inline(always)]
    fn is_good<const BYTES: usize>(&self) -> bool {
        let most = if BYTES == LINE_BYTES { MOST } else { MOST_2 };
        // Without devices the most is 0.
        let most_device = 20_000 * (self.flag & DEVICES) as u32;
        self.power.wrapping_sub(1) < 1_000_000
            && self.flag <= most.flag
            && self.compensation.max(self.motors) as u32 <= most_device
            && self.discount <= 1_000
    }
}

impl Line {
    /// Whether it keeps its rules in a park with so many places, the network being one. The version
    /// is that of records of this length.
    #[inline(always)]
    fn is_good<const BYTES: usize>(&self, places: usize) -> bool {
        let mark = self.mark();
        // Without the meter of the night WN is at most 0, else at most WG.
        let most = [mark.most[0], mark.most[1], mark.most[2], mark.most[3] & self.generated];
        let mut over = false;
        for (reading, most) in self.readings().iter().zip(most) {
            over |= *reading > most;
        }
        // A `to` of 0 wraps round to above every `from`; then no two ends are alike but 0 and 0.
        (self.from as usize) < places
            && (self.to as usize) < places
            && self.from <= self.to.wrapping_sub(1)
            && self.from != self.to
            && (self.eerp as u32).wrapping_sub(1) < mark.most_eerp[(BYTES == LINE_BYTES_2) as usize]
            && self.active_generated <= mark.most_active_generated
            && !over
    }
}

impl Generator {
    /// Whether it keeps rules 26 and 27 in a park with these sites.
    #[inline(always)]
    fn is_good(&self, sites: &[[u8; SITE_BYTES]]) -> bool {
        // Site 0 wraps round to above every site.
        let site = sites.get((self.site as usize).wrapping_sub(1));
        site.is_some_and(|record| Site::read(record).has_devices()) && self.output <= MOST_READING
    }
}
