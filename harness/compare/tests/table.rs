//! The C samples, built with the header against the archive: by `cc`, or what
//! CC names.

use oracle::example;
use std::fs;
use std::path::{Path, PathBuf};
use std::process::{Command, Output};
use std::sync::LazyLock;

fn repository() -> PathBuf {
    Path::new(env!("CARGO_MANIFEST_DIR")).join("../..")
}

/// The folder of the archives, as the harness links them.
fn archives() -> PathBuf {
    match std::env::var_os("PROBE_DIR") {
        Some(folder) => PathBuf::from(folder),
        None => repository().join("target/staticlib"),
    }
}

/// The program of a source file of the repository.
fn built(source: &str) -> PathBuf {
    let source = repository().join(source);
    let name = source.file_stem().expect("a file's name");
    let program = Path::new(env!("CARGO_TARGET_TMPDIR")).join(name);
    let compiler = std::env::var_os("CC").unwrap_or_else(|| "cc".into());
    let status = Command::new(compiler)
        .args([
            "-std=c99",
            "-Wall",
            "-Wextra",
            "-pedantic",
            "-Werror",
            "-O2",
        ])
        .arg("-I")
        .arg(repository().join("include"))
        .arg(&source)
        .arg(archives().join("libsalghemu.a"))
        .args(["-lm", "-o"])
        .arg(&program)
        .status();
    assert!(status.expect("a C compiler").success());
    program
}

/// Two tests run it, so it is built once.
static TABLE: LazyLock<PathBuf> = LazyLock::new(|| built("examples/table.c"));

fn run(command: &mut Command) -> Output {
    command.output().expect("the sample runs")
}

fn printed(program: &Path, folder: &Path) -> String {
    let output = run(Command::new(program).arg(folder));
    String::from_utf8(output.stdout).expect("plain text")
}

/// What stands beside the sheet of examples/.
fn expected() -> String {
    fs::read_to_string(repository().join("examples/expected.txt")).expect("a file")
}

/// An empty folder for one test.
fn fresh(name: &str) -> PathBuf {
    let folder = Path::new(env!("CARGO_TARGET_TMPDIR")).join(name);
    if folder.exists() {
        fs::remove_dir_all(&folder).expect("the folder goes");
    }
    fs::create_dir_all(&folder).expect("a folder");
    folder
}

/// The sheet of examples/ gives what stands beside it, also with options that
/// have no ratio; without one of its files, with a ratio of 0, or with a mark at
/// two pixels, of five marks or of three, it gives the refusal's name.
#[test]
fn the_sample_prints() {
    let (sheet, files) = example::files();
    assert_eq!(printed(&TABLE, &sheet), expected());

    let folder = fresh("table-sheet");
    let without = [
        ("options.bin", "RECORD"),
        ("marks.bin", "FEW"),
        ("stops.bin", "STOPS"),
        ("trials.bin", "NONE"),
    ];
    for (missing, name) in without {
        for (file, bytes) in &files {
            fs::write(folder.join(file), bytes).expect("a file");
        }
        fs::remove_file(folder.join(missing)).expect("a file");
        assert_eq!(printed(&TABLE, &folder), format!("refused: {name}\n"));
    }

    for (file, bytes) in &files {
        fs::write(folder.join(file), bytes).expect("a file");
    }
    let short = example::sheet().short_bytes().expect("ratio 1").options;
    fs::write(folder.join("options.bin"), &short).expect("a file");
    assert_eq!(printed(&TABLE, &folder), expected());
    let zero = [short.as_slice(), &[0; 8]].concat();
    fs::write(folder.join("options.bin"), zero).expect("a file");
    assert_eq!(printed(&TABLE, &folder), "refused: RATIO\n");

    // The middle mark at the first one's position.
    let mut doubled = example::sheet();
    doubled.marks.copy_within(..2, 16);
    fs::write(folder.join("options.bin"), &short).expect("a file");
    fs::write(folder.join("marks.bin"), doubled.bytes().marks).expect("a file");
    assert_eq!(printed(&TABLE, &folder), "refused: DOUBLE\n");
    doubled.marks.copy_within(16.., 8);
    doubled.marks.truncate(12);
    fs::write(folder.join("marks.bin"), doubled.bytes().marks).expect("a file");
    assert_eq!(printed(&TABLE, &folder), "refused: FEW\n");
    fs::remove_dir_all(&folder).expect("the folder goes");
}

/// A folder's files, by their names.
fn files_in(folder: &Path) -> Vec<(String, Vec<u8>)> {
    let entries = fs::read_dir(folder).expect("a folder");
    let mut files: Vec<_> = entries
        .map(|entry| {
            let path = entry.expect("a file").path();
            let name = path.file_name().expect("a name").to_string_lossy();
            (name.into_owned(), fs::read(&path).expect("a file"))
        })
        .collect();
    files.sort();
    files
}

/// The other sample writes the sheet of examples/ and nothing else, into the
/// folder that is named or else the one that it is run in, and the first reads
/// it. A file that can't be written is named.
#[test]
fn the_sheet_is_written() {
    let write = built("examples/write.c");
    let sheet = files_in(&example::files().0);
    let [named, run_in] = ["written-sheet", "written-here"].map(fresh);
    let mut commands = [Command::new(&write), Command::new(&write)];
    commands[0].arg(&named);
    commands[1].current_dir(&run_in);
    for (command, folder) in commands.iter_mut().zip([&named, &run_in]) {
        let output = run(command);
        assert!(output.status.success() && output.stdout.is_empty());
        assert_eq!(files_in(folder), sheet);
        assert_eq!(printed(&TABLE, folder), expected());
    }

    let nowhere = named.join("nowhere");
    let output = run(Command::new(&write).arg(&nowhere));
    assert_eq!(output.status.code(), Some(1));
    let text = format!("not written: {}/options.bin\n", nowhere.display());
    assert_eq!(String::from_utf8(output.stdout), Ok(text));
    for folder in [named, run_in] {
        fs::remove_dir_all(&folder).expect("the folder goes");
    }
}

/// The program exits with the line of the first refusal that differs.
#[test]
fn refusals_by_name() {
    let program = built("harness/compare/tests/refusals.c");
    let output = run(&mut Command::new(program));
    assert_eq!(output.status.code(), Some(0));
}
