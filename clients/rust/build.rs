//! Tells where the static library is: BTSPACE_LIBRARY names its file, and BTSPACE_LIBRARY_C that of the C part of Rattle's
//! libraries.

use std::env;
use std::path::PathBuf;

fn main() {
    for variable in ["BTSPACE_LIBRARY", "BTSPACE_LIBRARY_C"] {
        println!("cargo:rerun-if-env-changed={variable}");
        let named = env::var(variable).unwrap_or_else(|_| panic!("{variable} has to name a static library"));
        let file = PathBuf::from(&named)
            .canonicalize()
            .unwrap_or_else(|why| panic!("{named}: {why}"));
        let stem = file.file_stem().and_then(|stem| stem.to_str());
        let name = stem
            .and_then(|stem| stem.strip_prefix("lib"))
            .unwrap_or_else(|| panic!("{named} is no libNAME.a"));
        println!("cargo:rerun-if-changed={}", file.display());
        println!(
            "cargo:rustc-link-search=native={}",
            file.parent().expect("a file lies in a folder").display()
        );
        println!("cargo:rustc-link-lib=static={name}");
    }
}
