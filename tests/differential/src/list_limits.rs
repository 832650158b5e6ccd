//! Lists with one number on a boundary (02, R-1): around its limit, around the widths of bytes, and
//! beside the number that was there; every value of the narrowest fields; every two ends of a line;
//! every length of buffer.

use crate::calculator;
use crate::compare::{reply_to, Tester};
use crate::fields::{field_at, FIELDS};
use crate::list::{line_start, site_start, HEADER_NUMBERS, LINE_NUMBERS, SITE_NUMBERS};
use crate::park::{Park, MONTH_HOURS};
use crate::parks::{alder, five_sites, largest_park, one_line, places, with_line};

pub fn run(tester: &mut Tester) {
    let parks = [
        ("Alder", alder()),
        ("one line", one_line(1, 1, 0, 0)),
        ("five sites", five_sites()),
        ("the largest park", largest_park()),
    ];
    for (name, park) in &parks {
        boundaries(tester, name, park);
    }
    narrow_fields(tester);
    ends_of_lines(tester);
    hours_of_months(tester);
    counts_of_records(tester);
    buffers(tester);
}

/// Numbers on the boundaries of a field that holds `there`.
fn boundary_numbers(there: u32, most: u32) -> Vec<u32> {
    let mut numbers = vec![0, 1, most - 1, most, most + 1, u32::MAX];
    numbers.extend([there.wrapping_sub(1), there + 1]);
    for bits in [7, 8, 15, 16, 24, 31] {
        let width = 1 << bits;
        numbers.extend([width - 1, width, width + 1, width + most, there | width, there + width]);
    }
    numbers
}

/// Each field of the first, middle and last records on its boundaries.
fn boundaries(tester: &mut Tester, name: &str, park: &Park) {
    let (mut numbers, sites) = (park.to_list(), park.sites.len());
    let site_starts = places(sites).map(site_start);
    let line_starts = places(park.lines.len()).map(|line| line_start(sites, line));
    let mut starts: Vec<_> = site_starts.map(|start| (start, SITE_NUMBERS)).to_vec();
    starts.extend(line_starts.map(|start| (start, LINE_NUMBERS)));
    starts.push((0, HEADER_NUMBERS));
    for place in starts.into_iter().flat_map(|(start, fields)| start..start + fields) {
        let there = numbers[place];
        let field = &FIELDS[field_at(place, sites)];
        for number in boundary_numbers(there, field.most) {
            numbers[place] = number;
            let what = field.name;
            tester.list(&format!("list of {name}, {what} at {place} set to {number}"), &numbers);
        }
        numbers[place] = there;
    }
}

/// Alder's list with each one-byte field set to every value of a byte and of a little more.
fn narrow_fields(tester: &mut Tester) {
    let mut numbers = alder().to_list();
    for place in 0..numbers.len() {
        let field = &FIELDS[field_at(place, 2)];
        let there = numbers[place];
        for number in (0..=515).take_while(|_| field.width == 1) {
            numbers[place] = number;
            let what = field.name;
            tester.list(&format!("list of Alder, {what} at {place} set to {number}"), &numbers);
        }
        numbers[place] = there;
    }
}

/// Rules 14, 23 and 24: every two ends up to two above the most sites, and some that are too wide
/// for a byte, on a line that feeds no site alone, with a right mark and with a wrong one.
fn ends_of_lines(tester: &mut Tester) {
    let wide = [255, 256, 257, 258, 271, 272, 273, 0x1_0000, 0x1_0001, 0x8000_0001, u32::MAX];
    let ends: Vec<u32> = (0..=18).chain(wide).collect();
    for (sites, mark) in [1, 2, 15, 16].into_iter().flat_map(|sites| [(sites, 1), (sites, 5)]) {
        for (from, to) in ends.iter().flat_map(|from| ends.iter().map(move |to| (*from, *to))) {
            let numbers = with_line(sites, from, to, mark).to_list();
            let name = format!("list of {sites} sites, a line {from} to {to}, mark {mark}");
            tester.list(&name, &numbers);
        }
    }
}

/// Rule 8: each month's most hours, one more, and both 16 bits further.
fn hours_of_months(tester: &mut Tester) {
    for month in 1..=12 {
        let most = MONTH_HOURS[month as usize - 1];
        for hours in [0, most, most + 1, 0x1_0000, 0x1_0000 + most, 0x1_0001 + most] {
            let numbers = Park { month, hours, ..alder() }.to_list();
            tester.list(&format!("list of month {month}, t {hours}"), &numbers);
        }
    }
}

/// Rules 5, 6 and 9: counts of sites and lines, with just as many records.
fn counts_of_records(tester: &mut Tester) {
    let counts = [0, 1, 2, 15, 16, 17, 63, 64, 65, 255, 256, 257, 272, 320];
    let (site, line) = (alder().sites[1], alder().lines[0]);
    for (sites, lines) in
        counts.into_iter().flat_map(|sites| counts.map(move |lines| (sites, lines)))
    {
        let mut park = Park { sites: vec![site; sites], lines: vec![line; lines], ..alder() };
        for (index, line) in park.lines.iter_mut().enumerate() {
            line.to = (index % sites.max(1)) as u32 + 1;
        }
        tester.list(&format!("list of {sites} sites, {lines} lines"), &park.to_list());
    }
}

/// Rule 22: Alder's list for a buffer of every length up to a little more than needed, refused or
/// accepted by its length alone; and a refused list for the same buffers.
fn buffers(tester: &mut Tester) {
    let mut unfed = alder();
    (unfed.lines[1].to, unfed.lines[2].from, unfed.lines[2].to) = (0, 1, 0);
    for (name, park) in [("Alder", alder()), ("Alder, site 2 unfed", unfed)] {
        let numbers = park.to_list();
        for length in 0..=110 {
            let answer = calculator::encode(&numbers, length);
            let size = answer.as_ref().map_or(0, |file| file.len() as u64);
            let mut right = vec![0xC3; length];
            let mut buffer = right.clone();
            right[..size as usize].copy_from_slice(answer.as_deref().unwrap_or_default());
            let reply = tester.product.encode(&numbers, &mut buffer);
            tester.same(format_args!("a buffer of {length}"), (reply_to(&answer), size), reply);
            tester.same(format_args!("a buffer of {length}, bytes"), right, buffer);
        }
        tester.list(&format!("list of {name}, for every buffer"), &numbers);
    }
}
