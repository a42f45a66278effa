//! Links the two proved libraries, which `make lib` writes to build/ at the
//! root of the repository, and reads the version from their header.

use std::path::{Path, PathBuf};
use std::{env, fs};

fn main() {
    println!("cargo:rerun-if-env-changed=WENNATHIG_LIB_DIR");
    let manifest = env::var_os("CARGO_MANIFEST_DIR").map(PathBuf::from);
    let root = manifest.expect("cargo sets it").join("../..");
    version(&root.join("include/wennathig.h"));
    let beside = root.join("build");
    // Another folder may be named, to try the tests on changed libraries.
    let folder = env::var_os("WENNATHIG_LIB_DIR").map_or(beside, PathBuf::from);
    println!("cargo:rustc-link-search=native={}", folder.display());
    // The benchmark copies them.
    println!("cargo:folder={}", folder.display());
    for library in ["wennathig", "wennathig_watch"] {
        let archive = folder.join(format!("lib{library}.a"));
        println!("cargo:rerun-if-changed={}", archive.display());
        assert!(
            archive.exists(),
            "{} is missing: run `make lib` in the repository first",
            archive.display()
        );
        println!("cargo:rustc-link-lib=static={library}");
    }
}

/// Gives the compiler the version, which stands in the header and nowhere else.
fn version(header: &Path) {
    println!("cargo:rerun-if-changed={}", header.display());
    let said = fs::read_to_string(header).expect("the header is read");
    let part = |name: &str| {
        let mut lines = said.lines();
        let value =
            lines.find_map(|line| line.strip_prefix(&format!("#define WN_VERSION_{name} ")));
        let value = value.map(str::trim).unwrap_or_default().to_owned();
        assert!(
            value.parse::<u32>().is_ok(),
            "{} has no WN_VERSION_{name}",
            header.display()
        );
        value
    };
    let dotted = ["MAJOR", "MINOR", "PATCH"].map(part).join(".");
    println!("cargo:rustc-env=WENNATHIG_VERSION={dotted}");
}
