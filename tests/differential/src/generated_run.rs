//! The run over generated files of a version: every park accepted by 01 and 02, then a damaged file
//! made from it.

use crate::compare::Tester;
use crate::damage::random_damage;
use crate::generate_generators::random_park_of;
use crate::layout::Version;
use crate::random::Random;

/// Compares so many files, and what the program prints for a sample of about so many.
pub fn run(tester: &mut Tester, version: Version, seed: u64, files: u64, sample: u64) {
    // Odd, so that the sample has files of both kinds.
    let step = (files / sample.max(1)) | 1;
    // Other parks in each version.
    let of_version = seed ^ (version.number() as u64 - 1) << 32;
    for index in 0..files.div_ceil(2) {
        let mut random = Random::for_file(of_version, index);
        let park = random_park_of(&mut random, version);
        let damaged = random_damage(&mut random, &park);
        let pair = [("accepted", park.to_file()), ("damaged", damaged)];
        for (half, (kind, file)) in pair.iter().enumerate() {
            let version = version.number();
            let name = format!("seed {seed}, {kind} file {index} of version {version}");
            tester.file(&name, file);
            tester.coverage.generated(file);
            if sample > 0 && (2 * index + half as u64).is_multiple_of(step) {
                tester.print(&name, file);
            }
        }
    }
}
