//! The sheet of examples/ is what its program writes.

use oracle::example::files;

#[test]
fn the_files_are_todays() {
    let (folder, files) = files();
    for (name, bytes) in files {
        let there = std::fs::read(folder.join(name)).expect("a file that harness/README.md makes");
        assert!(there == bytes, "{name} differs");
    }
}
