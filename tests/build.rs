//! With APOLLO_LIB naming a folder that holds libhost.a, libsearch_alone.a and liblanes_alone.a, the
//! archives are linked and `cfg(apollo_lib)` is set. Without it the package stands alone.

use std::env;
use std::path::Path;

/// The library as hosts link it; the search and the digests of four frames by themselves, for tests
/// and benchmark alone.
const ARCHIVES: [&str; 3] = ["host", "search_alone", "lanes_alone"];

fn main() {
    println!("cargo:rustc-check-cfg=cfg(apollo_lib)");
    println!("cargo:rerun-if-env-changed=APOLLO_LIB");
    println!("cargo:rerun-if-changed=build.rs");
    let Ok(folder) = env::var("APOLLO_LIB") else {
        return;
    };
    let folder = Path::new(&folder)
        .canonicalize()
        .unwrap_or_else(|error| panic!("APOLLO_LIB={folder}: {error}"));
    for name in ARCHIVES {
        let archive = folder.join(format!("lib{name}.a"));
        assert!(
            archive.is_file(),
            "no {}: make it by `tools/archives {name}`",
            archive.display()
        );
        println!("cargo:rerun-if-changed={}", archive.display());
        println!("cargo:rustc-link-lib=static={name}");
    }
    println!("cargo:rustc-cfg=apollo_lib");
    println!(
        "cargo:rustc-env=APOLLO_ARCHIVE={}",
        folder.join("libhost.a").display()
    );
    println!("cargo:rustc-link-search=native={}", folder.display());
}
