//! The example files of the repository: NAME.prk, and in NAME.out what parkbill prints for it.

use std::fs;
use std::io;
use std::path::Path;

use crate::calculator::printed;
use crate::compare::Tester;
use crate::named_lists::{expect_file, ALDER_LIST};

/// Compares every example of a folder, and its NAME.out with what the calculator would print; then
/// makes Alder's file from its list.
pub fn run(tester: &mut Tester, folder: &Path) -> io::Result<()> {
    for entry in fs::read_dir(folder)? {
        let path = entry?.path();
        if path.extension().is_some_and(|kind| kind == "prk") {
            let name = path.file_name().unwrap_or_default().to_string_lossy();
            let file = fs::read(&path)?;
            let stored = fs::read_to_string(path.with_extension("out"))?;
            tester.same(format_args!("NAME.out, as stored"), printed(&file), stored);
            tester.file(&name, &file);
            tester.print(&name, &file);
        }
    }
    let alder = fs::read(folder.join("alder.prk"))?;
    expect_file(tester, "alder.prk, from Alder's list", &ALDER_LIST, &alder);
    Ok(())
}
