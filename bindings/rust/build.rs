//! Links the static library libpark_c.a, which `make library` makes.
//! PARK_LIB_DIR names another folder to look in (a relative one counts from this package).

use std::env;
use std::path::PathBuf;

fn main() {
    println!("cargo:rerun-if-env-changed=PARK_LIB_DIR");
    let package = PathBuf::from(env::var_os("CARGO_MANIFEST_DIR").expect("cargo sets the folder"));
    let folder = match env::var_os("PARK_LIB_DIR") {
        Some(folder) => package.join(folder),
        None => package.join("../../crates/park_c/out"),
    };
    println!("cargo:rustc-link-search=native={}", folder.display());
    println!("cargo:rustc-link-lib=static=park_c");
    println!("cargo:rerun-if-changed={}", folder.join("libpark_c.a").display());
}
