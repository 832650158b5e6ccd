//! Parks of version 2 (02, R-5), and short ways to write others by hand.

use crate::layout::Version;
use crate::list::{line, site};
use crate::park::{Generator, Line, Park};
use crate::parks::{alder, five_sites, largest_park};

/// Park Alder as a file of version 2, with a generator at site 1, byte by byte.
#[rustfmt::skip]
pub const ALDER_GENERATOR_FILE: [u8; 117] = [
    b'P', b'R', b'K', 2, 0, 4, 2, 3, 0x20, 0xA1, 0x07, 0, 200, 0, 1,
    0x90, 0x01, 0, 0, 1, 50, 0, 0, 0, 0, 0,
    100, 0, 0, 0, 0, 0, 0, 0, 0, 100, 0,
    0, 1, 1, 0x9D, 0x02, 0x40, 0x9C, 0, 0, 0x30, 0x75, 0, 0, 0, 0, 0, 0, 0, 0, 0, 0, 0, 0, 0, 0,
    1, 2, 1, 0xBC, 0x02, 0x10, 0x27, 0, 0, 0xA0, 0x0F, 0, 0, 0, 0, 0, 0, 0, 0, 0, 0, 0, 0, 0, 0,
    0, 2, 0, 0x9D, 0x02, 0x88, 0x13, 0, 0, 0, 0, 0, 0, 0, 0, 0, 0, 0, 0, 0, 0, 0, 0, 0, 0,
    1, 0x10, 0x27, 0, 0,
];

/// A generator from its two fields in the paper's order: site, active generation.
pub fn generator([site, output]: [u32; 2]) -> Generator {
    Generator { site, output }
}

/// A line of version 2 from its nine fields in the paper's order.
pub fn metered_line(fields: [u32; 9]) -> Line {
    let [first @ .., active_generated] = fields;
    Line { active_generated, ..line(first) }
}

/// A park as one of version 2, with these generators.
pub fn second(park: Park, generators: &[[u32; 2]]) -> Park {
    let generators = generators.iter().copied().map(generator).collect();
    Park { version: Version::Two, generators, ..park }
}

/// Alder as a park of version 2, with these generators.
pub fn alder_with(generators: &[[u32; 2]]) -> Park {
    second(alder(), generators)
}

/// A park of version 2 with these sites, lines and generators, at price T.
pub fn small_second(
    price: u32,
    sites: &[[u32; 5]],
    lines: &[[u32; 9]],
    generators: &[[u32; 2]],
) -> Park {
    let sites = sites.iter().copied().map(site).collect();
    let lines = lines.iter().copied().map(metered_line).collect();
    second(Park { price, hours: 3, sites, lines, ..alder() }, generators)
}

/// The five sites, the last without devices, the third and the last stations, and five generators,
/// two of them at one site.
pub fn five_with_generators() -> Park {
    let mut park = five_sites();
    park.sites[2].flag = 3;
    park.sites[4] = site([400, 2, 0, 0, 100]);
    for line in park.lines.iter_mut().step_by(2) {
        (line.meters, line.active_generated) = (line.meters | 8, 700);
    }
    second(park, &[[2, 3_000], [4, 0], [2, 500], [1, 10_000_000], [3, 256]])
}

/// The largest park there is in version 2; its third site has no devices, and every fourth is a
/// station.
pub fn largest_with_generators() -> Park {
    let mut park = largest_park();
    park.sites[2].flag = 0;
    park.sites.iter_mut().step_by(4).for_each(|site| site.flag |= 2);
    for (index, line) in park.lines.iter_mut().enumerate() {
        let metered = index % 4 != 3;
        line.meters |= 8 * metered as u32;
        line.active_generated = 10_000_000 * metered as u32;
    }
    let at_site = |index: u32| match 16 - index % 16 {
        3 => [16, 10_000_000],
        site => [site, 10_000_000],
    };
    second(park, &(0..32).map(at_site).collect::<Vec<_>>())
}
