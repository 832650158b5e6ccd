//! Named ends of lines (02, R-2): Alder with other ends and marks on its lines, as a file and as a
//! list. Every expected answer is written by hand from the papers, and is held against the
//! calculator as well as against the product.

use crate::compare::Tester;
use crate::expect::expect_reply;
use crate::named_lists::{expect_file, expect_refusal};
use crate::park::Park;
use crate::parks::alder;

/// Lines of Alder with other ends and marks, each as line, from, to, mark; then the refusal, none
/// if accepted.
type Named = (&'static str, &'static [(usize, u32, u32, u32)], Option<(u64, u64)>);

/// Alder has two sites; its lines are 0 to 1, 1 to 2 and 0 to 2, with the marks 1, 1 and 0.
const NAMED: [Named; 27] = [
    ("line 1 from 0 to 3", &[(1, 0, 3, 1)], Some((14, 1))),
    ("line 1 from 3 to 0", &[(1, 3, 0, 1)], Some((14, 1))),
    ("line 2 from 1 to 3", &[(2, 1, 3, 1)], Some((14, 2))),
    ("line 2 from 3 to 2", &[(2, 3, 2, 1)], Some((14, 2))),
    ("line 2 from 255 to 1", &[(2, 255, 1, 1)], Some((14, 2))),
    ("line 3 from 3 to 3", &[(3, 3, 3, 0)], Some((14, 3))),
    ("line 3 from 4 to 3", &[(3, 4, 3, 0)], Some((14, 3))),
    ("line 3 from 3 to 1, mark 5", &[(3, 3, 1, 5)], Some((14, 3))),
    ("line 1 from 0 to 0", &[(1, 0, 0, 1)], Some((23, 1))),
    ("line 3 from 0 to 0", &[(3, 0, 0, 0)], Some((23, 3))),
    ("line 2 from 0 to 0, mark 5", &[(2, 0, 0, 5)], Some((23, 2))),
    ("line 1 from 0 to 0, line 2 to 3", &[(1, 0, 0, 1), (2, 1, 3, 1)], Some((23, 1))),
    ("line 1 from 0 to 0, line 2 from 2", &[(1, 0, 0, 1), (2, 2, 1, 1)], Some((23, 1))),
    ("line 2 from 2 to 1", &[(2, 2, 1, 1)], Some((24, 2))),
    ("line 2 from 1 to 1", &[(2, 1, 1, 1)], Some((24, 2))),
    ("line 3 from 2 to 2", &[(3, 2, 2, 0)], Some((24, 3))),
    ("line 2 from 2 to 1, mark 5", &[(2, 2, 1, 5)], Some((24, 2))),
    ("line 3 from 2 to 2, mark 8", &[(3, 2, 2, 8)], Some((24, 3))),
    ("line 2 from 2 to 1, line 3 to 3", &[(2, 2, 1, 1), (3, 0, 3, 0)], Some((24, 2))),
    ("line 2 from 2 to 1, line 3 to 0", &[(2, 2, 1, 1), (3, 0, 0, 0)], Some((24, 2))),
    ("line 1 with mark 5, line 2 from 2 to 1", &[(1, 0, 1, 5), (2, 2, 1, 1)], Some((15, 1))),
    ("line 2 with mark 4, line 3 from 0 to 0", &[(2, 1, 2, 4), (3, 0, 0, 0)], Some((15, 2))),
    ("line 2 with mark 8, line 3 from 3 to 1", &[(2, 1, 2, 8), (3, 3, 1, 0)], Some((15, 2))),
    ("line 2 from 2 back to the network", &[(2, 2, 0, 1)], None),
    ("line 2 from 1 back to the network", &[(2, 1, 0, 1)], None),
    ("line 2 from the network to 1", &[(2, 0, 1, 1)], None),
    ("line 3 from 1 to 2", &[(3, 1, 2, 0)], None),
];

/// Ends that a byte would not hold, on line 2; the refusal is 14.
const WIDE: [(u32, u32); 10] = [
    (256, 2),
    (257, 2),
    (1, 258),
    (2, 256),
    (0, 256),
    (256, 256),
    (2, 257),
    (258, 257),
    (65_537, 2),
    (1, u32::MAX),
];

/// Alder with these ends and marks.
fn alder_with(changes: &[(usize, u32, u32, u32)]) -> Park {
    let mut park = alder();
    for (place, from, to, mark) in changes {
        let line = &mut park.lines[place - 1];
        (line.from, line.to, line.meters) = (*from, *to, *mark);
    }
    park
}

/// The named ends in files.
pub fn files(tester: &mut Tester) {
    for (name, changes, refusal) in NAMED {
        expect_reply(tester, name, &alder_with(changes).to_file(), refusal);
    }
}

/// The named ends in lists, and the wide ones.
pub fn lists(tester: &mut Tester) {
    for (name, changes, refusal) in NAMED {
        let park = alder_with(changes);
        let (name, numbers) = (format!("list, {name}"), park.to_list());
        match refusal {
            Some(refusal) => expect_refusal(tester, &name, &numbers, 2_000, refusal),
            None => expect_file(tester, &name, &numbers, &park.to_file()),
        }
    }
    for (from, to) in WIDE {
        let numbers = alder_with(&[(2, from, to, 1)]).to_list();
        expect_refusal(
            tester,
            &format!("list, line 2 from {from} to {to}"),
            &numbers,
            2_000,
            (14, 2),
        );
    }
}
