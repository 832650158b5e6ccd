//! The run over generated lists (02, R-1): the list of every park accepted by 01, then a damaged
//! list made from it.

use crate::compare::Tester;
use crate::generate::random_park;
use crate::list_damage::random_list_damage;
use crate::random::Random;

/// Compares so many lists, and what the program prints for a sample of about so many files made.
pub fn run(tester: &mut Tester, seed: u64, lists: u64, sample: u64) {
    let step = (lists / 2 / sample.max(1)).max(1);
    for index in 0..lists.div_ceil(2) {
        // Other parks than those of the generated files.
        let mut random = Random::for_file(!seed, index);
        let park = random_park(&mut random);
        let numbers = park.to_list();
        let damaged = random_list_damage(&mut random, &park);
        let name = format!("seed {seed}, accepted list {index}");
        tester.list(&name, &numbers);
        if sample > 0 && index.is_multiple_of(step) {
            tester.print_made(&name, &numbers);
        }
        tester.list(&format!("seed {seed}, damaged list {index}"), &damaged);
        for numbers in [&numbers, &damaged] {
            tester.coverage.generated_list(numbers);
        }
    }
}
