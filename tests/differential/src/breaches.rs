//! Deliberate breaches of rules 1 to 19, 23 and 24 (01, "Where each thing is checked"; 02, R-2 and
//! R-8), each with the number and place it must be refused with; those that R-5 brought are in
//! generator_breaches.rs. They fit any accepted park; a breach is a few bytes set, or another length,
//! so that nothing here goes through the calculator.

use crate::generator_breaches::{of_active_generation, of_counts, wrong_lengths};
use crate::layout::{Version, GENERATORS_OFFSET, LEAST_BYTES};
use crate::park::{Park, MONTH_HOURS};

/// A field set to a value: offset, width, value.
type Patch = (usize, usize, u64);

/// The rules that a file can break, in the order of the table.
pub const FILE_RULES: [u64; 24] =
    [1, 2, 3, 4, 5, 6, 7, 8, 25, 9, 10, 11, 12, 13, 14, 23, 24, 15, 16, 17, 18, 26, 27, 19];

#[derive(Clone, Debug)]
pub struct Breach {
    pub number: u64,
    pub place: u64,
    pub patches: Vec<Patch>,
    pub length: Option<usize>,
}

impl Breach {
    pub fn new(number: u64, place: usize, patches: Vec<Patch>) -> Breach {
        Breach { number, place: place as u64, patches, length: None }
    }

    pub fn of_length(number: u64, length: usize) -> Breach {
        Breach { length: Some(length), ..Breach::new(number, 0, vec![]) }
    }

    /// The file with the fields set, and only then cut or lengthened (by zero bytes).
    pub fn apply(&self, file: &mut Vec<u8>) {
        for (offset, width, value) in &self.patches {
            let bytes = value.to_le_bytes();
            file[*offset..offset + width].copy_from_slice(&bytes[..*width]);
        }
        if let Some(length) = self.length {
            file.resize(length, 0);
        }
    }

    /// Where it stands in the order of checking.
    pub fn order(&self) -> (u64, u64, usize) {
        order(self.number, self.place)
    }

    /// Whether both set some byte, or both change the length or what it has to be, or one cuts off
    /// the number of generators that breaks the other's rule.
    pub fn clashes_with(&self, other: &Breach) -> bool {
        let cut_off = |one: &Breach, two: &Breach| {
            two.number == 25 && one.length.is_some_and(|length| length <= GENERATORS_OFFSET)
        };
        let overlaps = |(start, width, _): &Patch, (other, other_width, _): &Patch| {
            *start < other + other_width && *other < start + width
        };
        self.length.is_some() && other.length.is_some()
            || self.number == 9 && other.number == 9
            || cut_off(self, other)
            || cut_off(other, self)
            || self.patches.iter().any(|one| other.patches.iter().any(|two| overlaps(one, two)))
    }
}

/// Where a refusal stands in the order of checking: header and length, sites, lines, generators,
/// park; then by its place, then by its row in the table.
pub fn order(number: u64, place: u64) -> (u64, u64, usize) {
    let stage = match number {
        1..=9 | 25 => 1,
        10..=13 => 2,
        14..=18 | 23 | 24 => 3,
        26 | 27 => 4,
        _ => 5,
    };
    let row = FILE_RULES.iter().position(|rule| *rule == number).expect("a rule of the table");
    (stage, place, row)
}

/// Rules 1 to 9, and 25.
pub fn of_header(park: &Park) -> Vec<Breach> {
    let hours = MONTH_HOURS[park.month as usize - 1] as u64;
    let fields = [
        (2, 0, 1, vec![b'p' as u64, 0]),
        (2, 1, 1, vec![b'r' as u64, 0xFF]),
        (2, 2, 1, vec![b'k' as u64, b'L' as u64]),
        (3, 3, 2, vec![0, 3, 0x0100, 0x0101, 0x0102, 0xFFFF]),
        (4, 5, 1, vec![0, 13, 255]),
        (5, 6, 1, vec![0, 17, 255]),
        (6, 7, 1, vec![0, 65, 255]),
        (7, 8, 4, vec![0, 2_000_001, 0xFFFF_FFFF]),
        (8, 12, 2, vec![hours + 1, 0xFFFF]),
    ];
    let mut breaches = Vec::new();
    for (number, offset, width, values) in fields {
        for value in values {
            breaches.push(Breach::new(number, 0, vec![(offset, width, value)]));
        }
    }
    breaches.extend((0..LEAST_BYTES).map(|length| Breach::of_length(1, length)));
    breaches.extend(wrong_lengths(park).map(|length| Breach::of_length(9, length)));
    breaches.extend(of_counts(park));
    breaches
}

/// Rules 10 to 13 at one site.
pub fn of_site(park: &Park, site: usize) -> Vec<Breach> {
    let start = park.version.site_offset(site);
    let field = |number, offset, width, value| {
        Breach::new(number, site, vec![(start + offset, width, value)])
    };
    let devices = |flag, compensation, motors| {
        let patches =
            vec![(start + 4, 1, flag), (start + 5, 2, compensation), (start + 7, 2, motors)];
        Breach::new(12, site, patches)
    };
    let mut breaches = vec![
        field(10, 0, 4, 0),
        field(10, 0, 4, 1_000_001),
        field(10, 0, 4, 0xFFFF_FFFF),
        devices(1, 20_001, 0),
        devices(1, 0, 20_001),
        devices(1, 0xFFFF, 20_000),
        devices(0, 1, 0),
        devices(0, 0, 1),
        devices(0, 256, 256),
        field(13, 9, 2, 1_001),
        field(13, 9, 2, 0xFFFF),
    ];
    let wrong_flags = match park.version {
        Version::One => vec![2, 3, 4, 255],
        Version::Two => vec![4, 5, 6, 7, 16, 130, 255],
    };
    breaches.extend(wrong_flags.into_iter().map(|flag| field(11, 4, 1, flag)));
    if park.version == Version::Two {
        breaches.extend(
            [(2, 1, 0), (2, 0, 1), (2, 256, 256), (3, 20_001, 0), (3, 0, 20_001)]
                .map(|(flag, compensation, motors)| devices(flag, compensation, motors)),
        );
    }
    breaches
}

/// Rules 14 to 18, 23 and 24 at one line.
pub fn of_line(park: &Park, place: usize) -> Vec<Breach> {
    let start = park.line_offset(place);
    let mark = park.lines[place - 1].meters as u64;
    let marks = match park.version {
        Version::One => vec![4, 5, 8, mark | 128],
        Version::Two => vec![4, 5, 12, 13, 16, mark | 128],
    };
    let fields = [
        (15, 2, 1, marks),
        (16, 3, 2, vec![0, 5_001, 0xFFFF]),
        (17, 5, 4, vec![10_000_001, 0xFFFF_FFFF]),
        (17, 9, 4, vec![10_000_001]),
        (17, 13, 4, vec![10_000_001]),
        (17, 17, 4, vec![10_000_001]),
    ];
    let mut breaches = of_ends(park, place);
    for (number, offset, width, values) in fields {
        for value in values {
            breaches.push(Breach::new(number, place, vec![(start + offset, width, value)]));
        }
    }
    breaches.extend(of_meters(park, place));
    breaches.extend(of_active_generation(park, place));
    breaches
}

/// Rules 14, 23 and 24 at one line.
fn of_ends(park: &Park, place: usize) -> Vec<Breach> {
    let start = park.line_offset(place);
    let last = park.sites.len() as u64;
    let next = last + 1;
    let in_order = [(0, next), (next, 0), (1, 255), (last, next)];
    let out_of_order = [(next, 1), (255, last), (next, next), (next + 1, next), (255, 255)];
    let above = in_order.into_iter().chain(out_of_order).map(|ends| (14, ends));
    let mut breaches: Vec<_> = above.collect();
    breaches.extend([(23, (0, 0)), (24, (1, 1)), (24, (last, last))]);
    if last > 1 {
        breaches.extend([(24, (2, 1)), (24, (last, last - 1)), (24, (last, 1))]);
    }
    let breach = |(number, (from, to))| {
        Breach::new(number, place, vec![(start, 1, from), (start + 1, 1, to)])
    };
    breaches.into_iter().map(breach).collect()
}

/// Rule 18 at one line, with the mark, WQ, WG and WN set.
fn of_meters(park: &Park, place: usize) -> Vec<Breach> {
    let start = park.line_offset(place);
    let line = &park.lines[place - 1];
    let (mark, reactive) = (line.meters as u64, line.reactive as u64);
    let values = [
        (mark & 6, 1, line.generated as u64, line.night as u64),
        (mark & 1, reactive, 1, 0),
        (mark & 1 | 2, reactive, 1, 1),
        (mark | 6, reactive, 0, 1),
        (mark | 6, reactive, 9_999_999, 10_000_000),
        (0, 10_000_000, 10_000_000, 10_000_000),
    ];
    let breach = |(mark, reactive, generated, night)| {
        let fields = [(2, 1, mark), (9, 4, reactive), (13, 4, generated), (17, 4, night)];
        let patches = fields.map(|(offset, width, value)| (start + offset, width, value));
        Breach::new(18, place, patches.to_vec())
    };
    values.into_iter().map(breach).collect()
}

/// Rule 19 at one site: its input lines are turned into lines back to the network.
pub fn of_inputs(park: &Park, site: usize) -> Breach {
    let mut patches = Vec::new();
    for (index, line) in park.lines.iter().enumerate() {
        if line.to as usize == site {
            let start = park.line_offset(index + 1);
            patches.push((start, 1, site as u64));
            patches.push((start + 1, 1, 0));
        }
    }
    Breach::new(19, site, patches)
}
