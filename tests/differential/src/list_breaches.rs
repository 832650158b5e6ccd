//! Deliberate breaches of the rules for a list (02, R-1), each with the number and place it must be
//! refused with: the breaches of a file that a list can hold, numbers too wide for their fields,
//! and wrong counts. Nothing here goes through the calculator.

use crate::breaches::{order, Breach};
use crate::fields::{field_at, FIELDS};
use crate::layout::{Version, SITE_BYTES};
use crate::list::{line_start, site_start};
use crate::park::Park;
use crate::parks::places;
use crate::refusals::all_breaches;

#[derive(Clone, Debug)]
pub struct ListBreach {
    pub number: u64,
    pub place: u64,
    /// Places of the list, counted from 0, and the numbers they get.
    pub changes: Vec<(usize, u32)>,
    pub count: Option<usize>,
}

impl ListBreach {
    /// The list with the numbers changed, and only then cut or lengthened (by zeros).
    pub fn apply(&self, numbers: &mut Vec<u32>) {
        for (place, number) in &self.changes {
            numbers[*place] = *number;
        }
        if let Some(count) = self.count {
            numbers.resize(count, 0);
        }
    }

    /// Where it stands in the order of checking.
    pub fn order(&self) -> (u64, u64, usize) {
        order(self.number, self.place)
    }

    /// Whether both change some number, or both the count.
    pub fn clashes_with(&self, other: &ListBreach) -> bool {
        let changed = |place| other.changes.iter().any(|(other, _)| *other == place);
        self.count.is_some() && other.count.is_some()
            || self.changes.iter().any(|(place, _)| changed(*place))
    }
}

/// Breaches of every rule that a list can break, at first, middle and last places.
pub fn all_list_breaches(park: &Park) -> Vec<ListBreach> {
    let of_file = all_breaches(park);
    let mut breaches: Vec<_> = of_file.iter().filter_map(|one| as_list(one, park)).collect();
    breaches.extend((0..5).flat_map(|place| of_width(park, place, 0)));
    for site in places(park.sites.len()) {
        let start = site_start(site);
        breaches.extend((start..start + 5).flat_map(|place| of_width(park, place, site)));
    }
    for line in places(park.lines.len()) {
        let start = line_start(park.sites.len(), line);
        breaches.extend((start..start + 8).flat_map(|place| of_width(park, place, line)));
        breaches.extend(of_wide_ends(park, line));
    }
    breaches.extend(of_count(park));
    breaches
}

/// A file's breach, if a list can hold it: not of the letters, the version or the length.
fn as_list(breach: &Breach, park: &Park) -> Option<ListBreach> {
    let Breach { number, place, patches, length } = breach;
    let change = |(offset, _, value): &(usize, usize, u64)| {
        (place_of(*offset, park.sites.len()), *value as u32)
    };
    let fields = patches.iter().all(|(offset, ..)| *offset >= 5);
    (fields && length.is_none()).then(|| ListBreach {
        number: *number,
        place: *place,
        changes: patches.iter().map(change).collect(),
        count: None,
    })
}

/// The place in a list of the field that begins at this offset of its file.
fn place_of(offset: usize, sites: usize) -> usize {
    let field = |starts: &[usize], offset: usize| {
        starts.iter().position(|start| *start == offset).expect("a field begins here")
    };
    let (header, lines) = (Version::One.header_bytes(), Version::One.line_offset(sites, 1));
    if offset < header {
        field(&[5, 6, 7, 8, 12], offset)
    } else if offset < lines {
        let offset = offset - header;
        site_start(offset / SITE_BYTES + 1) + field(&[0, 4, 5, 7, 9], offset % SITE_BYTES)
    } else {
        let offset = offset - lines;
        let starts = [0, 1, 2, 3, 5, 9, 13, 17];
        let bytes = Version::One.line_bytes();
        line_start(sites, offset / bytes + 1) + field(&starts, offset % bytes)
    }
}

/// Numbers that their field's width would turn into the number that is there, or into 0; the
/// widest fields hold nothing accepted in their highest byte, and are taken for narrower.
fn of_width(park: &Park, place: usize, record: usize) -> Vec<ListBreach> {
    let field = &FIELDS[field_at(place, park.sites.len())];
    let unit = 1 << (8 * field.width.min(3));
    let there = park.to_list()[place];
    let breach = |number| ListBreach {
        number: field.refusal,
        place: record as u64,
        changes: vec![(place, number)],
        count: None,
    };
    [there + unit, there | 1 << 31, unit].map(breach).to_vec()
}

/// Rule 14 at one line, with both ends set: a byte would take them for both the network, for ends
/// out of order, or for ends that may be.
fn of_wide_ends(park: &Park, line: usize) -> Vec<ListBreach> {
    let start = line_start(park.sites.len(), line);
    let ends = [(0, 256), (256, 0), (256, 256), (1, 257), (257, 1), (257, 257), (256, 1), (1, 256)];
    let breach = |(from, to)| ListBreach {
        number: 14,
        place: line as u64,
        changes: vec![(start, from), (start + 1, to)],
        count: None,
    };
    ends.map(breach).to_vec()
}

/// Rules 1 and 9; a count is wrong by one, by a record, by all records, or by what 8 or 16 bits
/// would not show.
fn of_count(park: &Park) -> Vec<ListBreach> {
    let right = line_start(park.sites.len(), park.lines.len() + 1);
    let few = (0..5).map(|count| (1, count));
    let wrong = [5, right - 8, right - 1, right + 1, right + 5, right + 256, right + 0x1_0000];
    let breach =
        |(number, count)| ListBreach { number, place: 0, changes: Vec::new(), count: Some(count) };
    few.chain(wrong.map(|count| (9, count))).map(breach).collect()
}
