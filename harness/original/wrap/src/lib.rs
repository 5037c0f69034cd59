//! Wraps a file of docs/src, byte for byte unchanged, into a module.
//!
//! Called by the build scripts of the two original crates. The module's text
//! goes to `OUT_DIR`, so the repository holds no second copy. After the file
//! come the accessor lines: a module `open` through which private functions
//! are called. [`unwrap`] gives the file's bytes back, for the test that
//! nothing was changed.
//!
//! Where a part of a function is to be compared and the rest of it would run
//! through a stand-in, [`lift`] takes that part's lines out. It stops the build
//! where the file doesn't have them as it expects.

use std::path::Path;
use std::{env, fs};

const BEGIN: &str = "// What was taken from the file begins on the next line.\n";
const END: &str = "\n// It ended before this line break.\n";

/// Writes `OUT_DIR/NAME.rs`: the module NAME around docs/src/PATH.
pub fn wrap(path: &str, name: &str, open: &str) {
    let behind = format!(
        "/// Private functions of the file, made callable.\n\
         pub mod open {{\n{open}\n}}\n"
    );
    put(name, ["", &read(path), &behind]);
}

/// Lines of a file, from the first to the last of these, and what takes the
/// place of some of them. Each of these texts stands in the file exactly once,
/// and those to replace among the lines.
pub struct Lines<'a> {
    pub path: &'a str,
    pub first: &'a str,
    pub last: &'a str,
    pub instead: &'a [(&'a str, &'a str)],
}

/// Writes `OUT_DIR/NAME.rs`: the module NAME of the lines between two texts,
/// and a constant `INSTEAD` with what was replaced.
pub fn lift(lines: &Lines, name: &str, before: &str, behind: &str) {
    let file = read(lines.path);
    let once = |text: &str, part: &str| {
        let mut places = text.match_indices(part).map(|(place, _)| place);
        let place = places.next();
        let place = place.unwrap_or_else(|| panic!("{} has no lines:\n{part}", lines.path));
        assert!(places.next().is_none(), "{}: twice:\n{part}", lines.path);
        place
    };
    let begin = once(&file, lines.first);
    let end = once(&file, lines.last) + lines.last.len();
    let mut text = file[begin..end].to_string();
    for (old, new) in lines.instead {
        once(&text, old);
        text = text.replace(old, new);
    }
    let instead = format!(
        "pub const INSTEAD: &[(&str, &str)] = &{:?};\n",
        lines.instead
    );
    put(name, [before, &text, &format!("{behind}\n{instead}")]);
}

/// A file of docs/src.
fn read(path: &str) -> String {
    let crate_folder = env::var("CARGO_MANIFEST_DIR").expect("run by cargo");
    let source = Path::new(&crate_folder)
        .join("../../../docs/src")
        .join(path);
    println!("cargo:rerun-if-changed={}", source.display());
    fs::read_to_string(&source).unwrap_or_else(|e| panic!("{}: {e}", source.display()))
}

/// A module, of which the middle part is the file's.
fn put(name: &str, [before, text, behind]: [&str; 3]) {
    let module = format!(
        "#[allow(warnings, clippy::all)]\npub mod {name} {{\n{before}{BEGIN}{text}{END}{behind}}}\n"
    );
    let out = env::var("OUT_DIR").expect("run by cargo");
    fs::write(Path::new(&out).join(name).with_extension("rs"), module).expect("OUT_DIR");
}

/// What was taken from the file, as it stands in a module.
pub fn unwrap(module: &str) -> &str {
    let begin = module.find(BEGIN).expect("the begin line") + BEGIN.len();
    let end = module.rfind(END).expect("the end line");
    &module[begin..end]
}
