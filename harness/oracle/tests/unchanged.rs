//! What was compiled is docs/src, byte for byte.

mod sha256;

use std::collections::HashMap;
use std::path::Path;

const SUMS: &str = include_str!("../../docs-src.sha256");

fn read(path: &str) -> Vec<u8> {
    let folder = Path::new(env!("CARGO_MANIFEST_DIR")).join("../../docs/src");
    std::fs::read(folder.join(path)).unwrap_or_else(|e| panic!("docs/src/{path}: {e}"))
}

/// The checked-in sums by path.
fn sums() -> HashMap<&'static str, &'static str> {
    SUMS.lines()
        .map(|line| line.split_once("  ").expect("a sum and a path"))
        .map(|(sum, path)| (path, sum))
        .collect()
}

#[test]
fn every_file_has_its_sum() {
    assert_eq!(sums().len(), 20);
    for (path, sum) in sums() {
        assert_eq!(sha256::hex(&read(path)), sum, "docs/src/{path}");
    }
}

#[test]
fn every_compiled_file_is_unchanged() {
    let compiled = [vision_calibration_core::COMPILED, vision_geometry::COMPILED].concat();
    assert_eq!(compiled.len(), 7);
    for (path, module) in compiled {
        let file = wrap::unwrap(module);
        assert!(file.as_bytes() == read(path), "{path} was changed");
        assert_eq!(sha256::hex(file.as_bytes()), sums()[path], "{path}");
    }
}

/// Between its first line and its last, a file has the lifted ones, but for
/// what was replaced.
#[test]
fn lifted_lines_are_unchanged() {
    assert_eq!(vision_geometry::LIFTED.len(), 1);
    for (path, module) in vision_geometry::LIFTED {
        let mut file = String::from_utf8(read(path)).expect("text");
        assert_eq!(sha256::hex(file.as_bytes()), sums()[path], "{path}");
        for (old, new) in vision_geometry::dlt::INSTEAD {
            assert_eq!(file.matches(old).count(), 1, "{path}: {old}");
            file = file.replace(old, new);
        }
        assert!(
            file.contains(wrap::unwrap(module)),
            "{path} has other lines"
        );
    }
}

#[test]
fn the_sum_is_sha_256() {
    let empty = "e3b0c44298fc1c149afbf4c8996fb92427ae41e4649b934ca495991b7852b855";
    let abc = "ba7816bf8f01cfea414140de5dae2223b00361a396177a9cb410ff61f20015ad";
    assert_eq!(sha256::hex(b""), empty);
    assert_eq!(sha256::hex(b"abc"), abc);
}
