//! Links the proved archives: from target/staticlib of the repository, or from
//! the folder that PROBE_DIR names.

use std::env;
use std::path::{Path, PathBuf};

const ARCHIVES: [&str; 4] = ["probe", "probe_pick", "probe_form", "salghemu"];

fn main() {
    println!("cargo:rerun-if-env-changed=PROBE_DIR");
    let folder = match env::var_os("PROBE_DIR") {
        Some(folder) => PathBuf::from(folder),
        None => Path::new(&env::var("CARGO_MANIFEST_DIR").expect("run by cargo"))
            .join("../../target/staticlib"),
    };
    println!("cargo:rustc-link-search=native={}", folder.display());
    for name in ARCHIVES {
        let archive = folder.join(format!("lib{name}.a"));
        println!("cargo:rerun-if-changed={}", archive.display());
        assert!(
            archive.exists(),
            "no {}: run `.ci/archives` first",
            archive.display()
        );
        println!("cargo:rustc-link-lib=static={name}");
    }
}
