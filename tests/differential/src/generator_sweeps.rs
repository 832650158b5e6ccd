//! Sweeps over files of version 2 (02, R-5): every byte of a small one, every site of a generator, and
//! every small WP0 by each of its parts.

use crate::compare::Tester;
use crate::generator_parks::{alder_with, second, small_second};
use crate::list::site;
use crate::park::Park;
use crate::parks::with_line;

pub fn run(tester: &mut Tester) {
    every_byte(tester);
    sites_of_generators(tester);
    around_zero(tester);
}

/// Alder with a generator and active generation on two lines, each byte set to each value.
fn every_byte(tester: &mut Tester) {
    let mut park = alder_with(&[[1, 10_000]]);
    for (line, reading) in park.lines.iter_mut().zip([4_000, 12_000]) {
        (line.meters, line.active_generated) = (line.meters | 8, reading);
    }
    let mut file = park.to_file();
    for offset in 0..file.len() {
        let before = file[offset];
        for value in 0..=255 {
            file[offset] = value;
            let name = format!("Alder with a generator, byte {offset} set to {value}");
            tester.file(&name, &file);
        }
        file[offset] = before;
    }
}

/// Rule 26: every site from 0 to two above the most, for the first or the second of two generators,
/// with devices at all sites, at all but the last, and at the last alone.
fn sites_of_generators(tester: &mut Tester) {
    for sites in [1, 2, 15, 16] {
        for flags in [[1, 1], [1, 0], [0, 1]] {
            for number in (0..=18).chain([255]) {
                for generators in [[[number, 7], [1, 7]], [[sites as u32, 7], [number, 7]]] {
                    let park = with_line(sites, 0, 1, 1);
                    let mut flagged = vec![site([16, flags[0], 0, 0, 0]); sites];
                    flagged[sites - 1] = site([16, flags[1], 0, 0, 0]);
                    let park = second(Park { sites: flagged, ..park }, &generators);
                    let name = format!("{sites} sites, flags {flags:?}, at {generators:?}");
                    tester.file(&name, &park.to_file());
                }
            }
        }
    }
}

/// Step 2: WP0 from -12 to 16, by the active generation of an input, of a transit with a reactive meter
/// and of one without, and by a generator; and the same without the generator.
fn around_zero(tester: &mut Tester) {
    let parts = [0, 1, 4];
    let each = |part: usize, index: usize| parts[index / 3_usize.pow(part as u32) % 3];
    for index in 0..3_usize.pow(6) {
        let [consumed, input, taken_off, metered, unmetered, output] =
            [0, 1, 2, 3, 4, 5].map(|part| each(part, index));
        let lines = [
            [0, 1, 9, 700, consumed, 1_001, 0, 0, 2 * input],
            [1, 0, 9, 650, taken_off, 1, 0, 0, metered],
            [1, 0, 8, 600, 1_000, 0, 0, 0, unmetered],
        ];
        for generators in [&[][..], &[[1, output]]] {
            let park = small_second(500_000, &[[16, 1, 0, 0, 0]], &lines, generators);
            tester.file(&format!("lines {lines:?}, generators {generators:?}"), &park.to_file());
        }
    }
}
