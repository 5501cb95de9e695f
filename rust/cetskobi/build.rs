//! Links the archive that `tools/archive` makes, libcetskobi.a: out of the
//! folder CETSKOBI_LIB_DIR or, where that is not set, out of the repository's
//! target/staticlib. A relative folder is one from this package.

use std::env;
use std::path::PathBuf;

fn main() {
    println!("cargo:rerun-if-env-changed=CETSKOBI_LIB_DIR");
    // Relative, and asked when it runs: a build folder that was copied from elsewhere finds the archive here.
    let named = env::var_os("CETSKOBI_LIB_DIR").unwrap_or("../../target/staticlib".into());
    let folder = PathBuf::from(named);
    let package = env::var_os("CARGO_MANIFEST_DIR").expect("cargo says where the package is");
    let there = PathBuf::from(package).join(&folder);
    println!("cargo:rustc-link-search=native={}", there.display());
    println!(
        "cargo:rerun-if-changed={}",
        folder.join("libcetskobi.a").display()
    );
    let path = there.join("libcetskobi.a");
    if !path.exists() {
        panic!(
            "no {}: run `sh tools/archive` in the repository's root, or set CETSKOBI_LIB_DIR to the folder that has it",
            path.display()
        );
    }
    println!("cargo:rustc-link-lib=static=cetskobi");
}
