//! Park Alder and its cut neighbour (01, "Park Alder, and its neighbours"), and short ways to write
//! other parks by hand.

use crate::layout::Version;
use crate::list::{line, site};
use crate::park::Park;

/// What parkbill prints for Park Alder.
pub const ALDER_PRINTED: &str = "\
site,consumption,tg,settled,cut,generation,pc,pg,p2,p3,total,reason
1,26000,867,17270000,0,100000,863500,334500,328725,0,1526725,0
2,8000,533,5476000,0,0,273800,0,21928,27380,268348,0
";

/// What parkbill prints for Alder with WQ 40,000 on line 2, since R-4 (02).
pub const ALDER_CUT_PRINTED: &str = "\
site,consumption,tg,settled,cut,generation,pc,pg,p2,p3,total,reason
1,0,0,0,7930000,100000,0,334500,0,0,334500,0
2,44000,2933,30676000,0,0,1533800,0,4697263,153380,6077683,0
";

/// Park Alder byte by byte, as "The park file" lays it out.
#[rustfmt::skip]
pub const ALDER_FILE: [u8; 99] = [
    b'P', b'R', b'K', 1, 0, 4, 2, 3, 0x20, 0xA1, 0x07, 0, 200, 0,
    0x90, 0x01, 0, 0, 1, 50, 0, 0, 0, 0, 0,
    100, 0, 0, 0, 0, 0, 0, 0, 0, 100, 0,
    0, 1, 1, 0x9D, 0x02, 0x40, 0x9C, 0, 0, 0x30, 0x75, 0, 0, 0, 0, 0, 0, 0, 0, 0, 0,
    1, 2, 1, 0xBC, 0x02, 0x10, 0x27, 0, 0, 0xA0, 0x0F, 0, 0, 0, 0, 0, 0, 0, 0, 0, 0,
    0, 2, 0, 0x9D, 0x02, 0x88, 0x13, 0, 0, 0, 0, 0, 0, 0, 0, 0, 0, 0, 0, 0, 0,
];

/// Park Alder.
pub fn alder() -> Park {
    Park {
        version: Version::One,
        month: 4,
        price: 500_000,
        hours: 200,
        sites: vec![site([400, 1, 50, 0, 0]), site([100, 0, 0, 0, 100])],
        lines: vec![
            line([0, 1, 1, 669, 40_000, 30_000, 0, 0]),
            line([1, 2, 1, 700, 10_000, 4_000, 0, 0]),
            line([0, 2, 0, 669, 5_000, 0, 0, 0]),
        ],
        generators: vec![],
    }
}

/// Alder with WQ 40,000 on line 2.
pub fn alder_cut() -> Park {
    let mut park = alder();
    park.lines[1].reactive = 40_000;
    park
}

/// A park with these sites and lines at price T.
pub fn small_park(price: u32, sites: &[[u32; 5]], lines: &[[u32; 8]]) -> Park {
    let sites = sites.iter().copied().map(site).collect();
    let lines = lines.iter().copied().map(line).collect();
    Park { price, hours: 3, sites, lines, ..alder() }
}

/// A park of one plain site, fed by one metered line with this D, WP and WQ.
pub fn one_line(price: u32, eerp: u32, active: u32, reactive: u32) -> Park {
    small_park(price, &[[400, 0, 0, 0, 0]], &[[0, 1, 1, eerp, active, reactive, 0, 0]])
}

/// Five sites, nine lines: a chain with a line beside it, feeds of its own and two lines back.
pub fn five_sites() -> Park {
    let ends = [(0, 1), (1, 2), (2, 3), (0, 4), (2, 3), (3, 0), (4, 5), (0, 5), (5, 0)];
    let marks = [7, 3, 1, 0, 2, 6, 7, 0, 1];
    let lines = ends.iter().zip(marks).map(|((from, to), mark)| {
        line([*from, *to, mark, 700, 5_000, mark % 2 * 3_000, mark / 2 % 2 * 900, mark / 4 * 400])
    });
    Park { sites: vec![site([400, 1, 50, 20, 100]); 5], lines: lines.collect(), ..alder() }
}

/// Sixteen sites in a chain, and lines of every kind up to 64.
pub fn largest_park() -> Park {
    let chain = (1..=16).map(|to| (to - 1, to));
    let feeds = (1..=16).map(|to| (0, to));
    let skips = (1..=16).map(|from| (from, if from < 15 { from + 2 } else { 0 }));
    let back = (1..=16).map(|from| (from, 0));
    let lines =
        chain.chain(feeds).chain(skips).chain(back).enumerate().map(|(index, (from, to))| {
            line([from, to, [7, 0, 3][index % 3], 5_000, 10_000_000, 0, 0, 0])
        });
    Park { sites: vec![site([16, 1, 0, 0, 0]); 16], lines: lines.collect(), ..alder() }
}

/// A park of so many sites, each fed by a line of its own, and after those a line with these ends
/// and this mark.
pub fn with_line(sites: usize, from: u32, to: u32, mark: u32) -> Park {
    let feeds = (1..=sites as u32).map(|to| line([0, to, 0, 1, 1_000, 0, 0, 0]));
    let lines = feeds.chain([line([from, to, mark, 1, 500, 400, 0, 0])]).collect();
    Park { sites: vec![site([16, 0, 0, 0, 0]); sites], lines, ..alder() }
}

/// First, middle and last.
pub fn places(count: usize) -> [usize; 3] {
    [1, count / 2 + 1, count]
}
