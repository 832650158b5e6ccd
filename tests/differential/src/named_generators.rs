//! Named generators (02, R-5): Alder in version 2, WP0 part by part, and generators of several sites;
//! refused files are in named_second.rs. Every expected value is written by hand from the papers, and
//! is held against the calculator as well as against the product.

use crate::compare::Tester;
use crate::expect::{expect_numbers, expect_printed, CONSUMPTION, SETTLED, TANGENT};
use crate::generator_parks::{alder_with, small_second, ALDER_GENERATOR_FILE};
use crate::named_second;
use crate::parks::ALDER_PRINTED;

/// What parkbill prints for Alder with a generator of 10,000 kWh at site 1: WP0 is 40,000 there.
const ALDER_GENERATOR_PRINTED: &str = "\
site,consumption,tg,settled,cut,generation,pc,pg,p2,p3,total,reason
1,26000,650,17270000,0,100000,863500,334500,138160,0,1336160,0
2,8000,533,5476000,0,0,273800,0,21928,27380,268348,0
";

/// The same with 4,000 kWh generated on line 1, 12,000 on line 2 and 5,000 on line 3: WP0 is 48,000.
const ALDER_ALL_PRINTED: &str = "\
site,consumption,tg,settled,cut,generation,pc,pg,p2,p3,total,reason
1,26000,542,17270000,0,100000,863500,334500,73625,0,1271625,0
2,8000,533,5476000,0,0,273800,0,21928,27380,268348,0
";

/// Of a site whose WQ0 is 10,000: WP and active generation of its input, of a transit with a reactive
/// meter and of one without; what its generators read; then tg and the consumption.
type Named = ([[u32; 2]; 3], &'static [u32], u64, u64);

const M10: u32 = 10_000_000;
const NONE: [u32; 2] = [0, 0];

const ACTIVE: [Named; 24] = [
    // WP0 20,000, and its parts in turn.
    ([[20_000, 0], NONE, NONE], &[0], 500, 10_000),
    ([[20_000, 4_000], NONE, NONE], &[0], 625, 10_000),
    ([[20_000, 0], [4_000, 0], NONE], &[0], 625, 10_000),
    ([[20_000, 0], [0, 5_000], NONE], &[0], 400, 10_000),
    ([[20_000, 0], NONE, [4_000, 0]], &[0], 500, 8_000),
    ([[20_000, 0], NONE, [0, 5_000]], &[0], 400, 10_000),
    ([[20_000, 0], NONE, [4_000, 5_000]], &[0], 400, 8_400),
    ([[20_000, 0], NONE, NONE], &[5_000], 400, 10_000),
    ([[20_000, 0], NONE, NONE], &[2_000, 3_000], 400, 10_000),
    ([[20_000, 0], NONE, NONE], &[0, 5_000, 0], 400, 10_000),
    // 20,000 - 4,000 - 4,000 + 5,000 + 3,000 + 30,000 is 50,000.
    ([[20_000, 4_000], [4_000, 5_000], [4_000, 3_000]], &[20_000, 10_000], 200, 9_200),
    // WP0 -1, 0, 1 and 2,000, by a generator.
    ([[4_000, 14_000], NONE, NONE], &[9_999], 800, 10_000),
    ([[4_000, 14_000], NONE, NONE], &[10_000], 800, 10_000),
    ([[4_000, 14_000], NONE, NONE], &[10_001], 99_999, 10_000),
    ([[4_000, 14_000], NONE, NONE], &[12_000], 5_000, 10_000),
    // WP0 -1,000 and 2,000, by the transits.
    ([[4_000, 14_000], [0, 7_000], [0, 2_000]], &[0], 800, 10_000),
    ([[4_000, 14_000], [0, 7_000], [0, 5_000]], &[0], 5_000, 10_000),
    // Cut once: 1,000 - 6,000 + 10,000, and 1,000 - 6,000 - 10,000 + 20,000.
    ([[1_000, 6_000], [0, 0], [0, 10_000]], &[0], 2_000, 10_000),
    ([[1_000, 6_000], [10_000, 0], NONE], &[20_000], 2_000, 10_000),
    ([[0, 0], NONE, NONE], &[0], 800, 10_000),
    ([[0, 0], [M10, 0], NONE], &[M10, 20_000], 500, 10_000),
    // 20,000,000 is half a thousandth; 300,000,000 and -30,000,000 are the extremes here.
    ([[M10, M10], [M10, M10], [0, M10]], &[M10], 1, 10_000),
    ([[0, M10], [M10, 0], NONE], &[M10; 32], 0, 10_000),
    ([[0, M10], [M10, 0], NONE], &[0; 32], 800, 10_000),
];

/// Runs the named generators.
pub fn run(tester: &mut Tester) {
    alders(tester);
    active(tester);
    other_sites(tester);
    line_between(tester);
    named_second::run(tester);
}

fn alders(tester: &mut Tester) {
    let file = alder_with(&[[1, 10_000]]).to_file();
    tester.same(format_args!("Alder's bytes"), &ALDER_GENERATOR_FILE[..], &file[..]);
    expect_printed(tester, "Alder, version 2", &alder_with(&[]), ALDER_PRINTED);
    let park = alder_with(&[[1, 0]]);
    expect_printed(tester, "Alder, a generator that reads 0", &park, ALDER_PRINTED);
    let park = alder_with(&[[1, 10_000]]);
    expect_printed(tester, "Alder, a generator", &park, ALDER_GENERATOR_PRINTED);
    let park = alder_with(&[[1, 4_000], [1, 0], [1, 6_000]]);
    expect_printed(tester, "Alder, three generators", &park, ALDER_GENERATOR_PRINTED);
    for (generators, printed) in [(&[][..], ALDER_PRINTED), (&[[1, 10_000]], ALDER_ALL_PRINTED)] {
        let mut park = alder_with(generators);
        for (line, reading) in park.lines.iter_mut().zip([4_000, 12_000, 5_000]) {
            (line.meters, line.active_generated) = (line.meters | 8, reading);
        }
        let name = format!("Alder, all lines generate, {} generators", generators.len());
        expect_printed(tester, &name, &park, printed);
    }
}

/// Step 2 at a site with generators; and at the same site without them, where WP0 is that of 01.
fn active(tester: &mut Tester) {
    for ([input, metered, unmetered], outputs, tangent, consumption) in ACTIVE {
        let lines = [
            [0, 1, 9, 10, input[0], 12_000, 0, 0, input[1]],
            [1, 0, 9, 10, metered[0], 2_000, 0, 0, metered[1]],
            [1, 0, 8, 10, unmetered[0], 0, 0, 0, unmetered[1]],
        ];
        let generators: Vec<_> = outputs.iter().map(|output| [1, *output]).collect();
        let site = [400, 1, 0, 0, 0];
        let park = small_second(1_000_000, &[site], &lines, &generators);
        let name = format!("{input:?}, {metered:?}, {unmetered:?}, generators {outputs:?}");
        let numbers = [(TANGENT, tangent), (CONSUMPTION, consumption), (SETTLED, 10 * consumption)];
        expect_numbers(tester, &name, &park, 1, &numbers);
    }
    for (reading, marks) in [(4_000, [9, 9, 8]), (0, [1, 1, 0])] {
        let lines = [
            [0, 1, marks[0], 10, 30_000, 12_000, 0, 0, reading],
            [1, 0, marks[1], 10, 10_000, 2_000, 0, 0, reading],
            [1, 0, marks[2], 10, 4_000, 0, 0, 0, reading],
        ];
        let park = small_second(1_000_000, &[[400, 1, 0, 0, 0]], &lines, &[]);
        let name = format!("No generator, {reading} generated");
        expect_numbers(tester, &name, &park, 1, &[(TANGENT, 500), (CONSUMPTION, 8_000)]);
    }
}

/// A generator counts at its own site alone.
fn other_sites(tester: &mut Tester) {
    let sites = [[400, 1, 0, 0, 0]; 3];
    let lines = [1, 2, 3].map(|to| [0, to, 9, 10, 20_000, 10_000, 0, 0, 4_000]);
    let cases: [(&[[u32; 2]], [u64; 3]); 6] = [
        (&[], [500, 500, 500]),
        (&[[2, 9_000]], [500, 400, 500]),
        (&[[3, 0]], [500, 500, 625]),
        (&[[2, 4_000], [1, 24_000], [2, 0]], [250, 500, 500]),
        (&[[3, 4_000], [2, 9_000], [1, 24_000]], [250, 400, 500]),
        (&[[1, 0], [3, 0], [1, 4_000], [3, 9_000]], [500, 500, 400]),
    ];
    for (generators, tangents) in cases {
        let park = small_second(1_000_000, &sites, &lines, generators);
        for (site, tangent) in (1..).zip(tangents) {
            let name = format!("Three sites, generators {generators:?}");
            expect_numbers(tester, &name, &park, site, &[(TANGENT, tangent)]);
        }
    }
}

/// The active generation of a line between sites is a transit's at one end, an input's at the other.
fn line_between(tester: &mut Tester) {
    let lines =
        [[0, 1, 1, 10, 30_000, 20_000, 0, 0, 0], [1, 2, 9, 10, 14_000, 10_000, 0, 0, 6_000]];
    let cases: [(&[[u32; 2]], [u64; 2]); 4] = [
        (&[], [625, 714]),
        (&[[1, 0]], [455, 714]),
        (&[[2, 0]], [625, 1_250]),
        (&[[2, 0], [1, 0]], [455, 1_250]),
    ];
    for (generators, tangents) in cases {
        let park = small_second(1_000_000, &[[400, 1, 0, 0, 0]; 2], &lines, generators);
        for (site, tangent) in (1..).zip(tangents) {
            let name = format!("A line between sites, generators {generators:?}");
            expect_numbers(tester, &name, &park, site, &[(TANGENT, tangent)]);
        }
    }
}
