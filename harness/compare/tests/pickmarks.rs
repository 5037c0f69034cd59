//! The program pickmarks on folders of files, against the book's text.
//!
//! The program is target/bin/pickmarks of the repository, or the one that
//! PICKMARKS names.

use oracle::Sheet;
use oracle::cases::Random;
use oracle::double_cases::{apart, flat, pairs, spoiled};
use oracle::example;
use oracle::pick_cases::{Bytes, any_stops, damaged, reference, runs};
use oracle::ratio_cases;
use oracle::whole::printed;
use std::collections::BTreeMap;
use std::fs;
use std::path::{Path, PathBuf};
use std::process::Command;

/// The four files, in the order of the program's reading.
const FILES: [&str; 4] = ["options.bin", "marks.bin", "stops.bin", "trials.bin"];

/// A number of folders from which on every kind of last line must come up.
const LONG: usize = 300;

fn program() -> PathBuf {
    match std::env::var_os("PICKMARKS") {
        Some(path) => PathBuf::from(path),
        None => Path::new(env!("CARGO_MANIFEST_DIR")).join("../../target/bin/pickmarks"),
    }
}

/// A folder of its own, removed at the end.
struct Folder(PathBuf);

impl Folder {
    fn new(name: &str) -> Self {
        let name = format!("pickmarks-{}-{name}", std::process::id());
        let folder = Path::new(env!("CARGO_TARGET_TMPDIR")).join(name);
        fs::create_dir_all(&folder).expect("a folder for files");
        Self(folder)
    }

    /// Writes the files, without those that are missing.
    fn fill(&self, files: &[Option<Vec<u8>>; 4]) {
        for (name, bytes) in FILES.iter().zip(files) {
            let path = self.0.join(name);
            match bytes {
                Some(bytes) => fs::write(path, bytes).expect("a file"),
                None if path.exists() => fs::remove_file(path).expect("a file to remove"),
                None => {}
            }
        }
    }

    /// What the program prints in this folder.
    fn run(&self) -> String {
        let program = program();
        let output = Command::new(&program).current_dir(&self.0).output();
        let output = output.unwrap_or_else(|error| {
            panic!("{}: {error}; run `rt check pickmarks`", program.display())
        });
        String::from_utf8(output.stdout).expect("plain text")
    }
}

impl Drop for Folder {
    fn drop(&mut self) {
        let _ = fs::remove_dir_all(&self.0);
    }
}

/// Compares one folder, whose missing files count as empty; tells the text.
fn compare(folder: &Folder, files: &[Option<Vec<u8>>; 4]) -> String {
    let [options, marks, stops, trials] = files.clone().map(Option::unwrap_or_default);
    let bytes = Bytes {
        options,
        marks,
        stops,
        trials,
    };
    folder.fill(files);
    let expected = printed(&bytes.inputs());
    let text = folder.run();
    let lengths = files.each_ref().map(|file| file.as_ref().map(Vec::len));
    assert_eq!(text, expected, "{lengths:?}, options {:?}", bytes.options);
    text
}

fn all(bytes: Bytes) -> [Option<Vec<u8>>; 4] {
    [bytes.options, bytes.marks, bytes.stops, bytes.trials].map(Some)
}

/// How often each last line came, its numbers left out.
#[derive(Default)]
struct Lines(BTreeMap<String, usize>);

impl Lines {
    fn add(&mut self, text: &str) {
        let last = text.lines().last().unwrap_or("nothing");
        let kind = match last.strip_prefix("counts") {
            Some(_) if text.contains("winner none") => "no winner",
            Some(_) => "winner",
            None => last,
        };
        *self.0.entry(kind.to_string()).or_default() += 1;
    }

    fn met(&self, kinds: &[&str]) {
        for &kind in kinds {
            assert!(self.0.contains_key(kind), "no case of {kind}");
        }
    }
}

/// 01's worked run, word for word, from the sheet in examples/.
#[test]
fn the_worked_run() {
    let (folder, _) = example::files();
    let output = Command::new(program()).current_dir(folder).output();
    let output = output.expect("the program; run `rt check pickmarks`");
    assert_eq!(String::from_utf8_lossy(&output.stdout), example::PRINTED);
}

/// Runs that nothing is wrong with, in the reference's domain and beyond. Where
/// the ratio is 1, options without it print the same.
#[test]
fn good_folders() {
    let random = &mut Random::new(60);
    let folder = Folder::new("good");
    let mut lines = Lines::default();
    let mut short = 0;
    let count = runs(300, 20_000);
    for i in 0..count {
        let case = match i % 2 {
            0 => reference(random, i / 2),
            _ => any_stops(random, i / 2),
        };
        let text = compare(&folder, &all(case.bytes()));
        lines.add(&text);
        if let Some(bytes) = case.short_bytes() {
            assert_eq!(compare(&folder, &all(bytes)), text);
            short += 1;
        }
    }
    println!("pickmarks, good: {:?}, short options {short}", lines.0);
    if count >= LONG {
        lines.met(&["winner", "no winner"]);
        assert!(0 < short && short < count);
    }
}

/// Damaged files, and one that is missing now and then.
#[test]
fn damaged_folders() {
    let random = &mut Random::new(61);
    let folder = Folder::new("damaged");
    let mut lines = Lines::default();
    let count = runs(500, 20_000);
    for i in 0..count {
        let mut files = all(damaged(random, i));
        if random.below(8) == 0 {
            files[random.below(4) as usize] = None;
        }
        lines.add(&compare(&folder, &files));
    }
    println!("pickmarks, damaged: {:?}", lines.0);
    if count >= LONG {
        lines.met(&["winner", "no winner"]);
        for number in [1, 2, 3, 4, 16, 5, 6, 7, 18, 8] {
            lines.met(&[&format!("refused {number}")]);
        }
    }
}

/// Each set of missing files, and of empty ones.
#[test]
fn missing_files() {
    let folder = Folder::new("missing");
    for set in 0..16 {
        for instead in [None, Some(Vec::new())] {
            let mut files = all(example::sheet().bytes());
            for (place, file) in files.iter_mut().enumerate() {
                if set >> place & 1 == 1 {
                    *file = instead.clone();
                }
            }
            compare(&folder, &files);
        }
    }
}

/// Each file of the worked run cut and made longer, to either side of every
/// length that matters.
#[test]
fn lengths() {
    let folder = Folder::new("lengths");
    let good = all(example::sheet().bytes());
    let lengths: [&[usize]; 4] = [
        &[0, 1, 24, 31, 32, 33, 39, 40, 41, 42, 64, 5000],
        &[
            31, 32, 96, 127, 128, 129, 159, 161, 192, 63_999, 64_000, 64_001, 64_032, 200_000,
        ],
        &[3, 4, 20, 23, 25, 28, 8004, 8008],
        &[
            1, 151, 152, 153, 303, 304, 305, 455, 456, 457, 607, 609, 760, 100_000,
        ],
    ];
    for (place, lengths) in lengths.iter().enumerate() {
        for &len in *lengths {
            let mut files = good.clone();
            files[place].as_mut().expect("a file").resize(len, 0);
            let text = compare(&folder, &files);
            if place == 0 {
                let is_record = [32, 40].contains(&len);
                let expected = if is_record {
                    example::PRINTED
                } else {
                    "refused 1\n"
                };
                assert_eq!(text, expected, "{len} bytes");
            }
        }
    }
}

/// The worked run by each ratio at which something turns, and with another
/// fault before it and behind.
#[test]
fn ratios() {
    let folder = Folder::new("ratios");
    for ratio in ratio_cases::limits() {
        let mut case = example::sheet();
        case.options.ratio = ratio;
        let text = compare(&folder, &all(case.bytes()));
        let accepted = 0.01 <= ratio && ratio <= 100.0;
        assert_eq!(text == "refused 16\n", !accepted, "{ratio:e}");
        case.marks.push(0.0);
        let text = compare(&folder, &all(case.bytes()));
        let number = if accepted { 5 } else { 16 };
        assert_eq!(text, format!("refused {number}\n"), "{ratio:e}");
        case.options.max_iters = 0;
        assert_eq!(compare(&folder, &all(case.bytes())), "refused 4\n");
    }
}

/// A stored file in which a mark stands at two pixels: 18 and nothing else is
/// printed, and the file stays as it was. The same mark twice is no fault.
#[test]
fn a_mark_at_two_pixels() {
    let folder = Folder::new("doubled");
    let mut case = example::sheet();
    case.stops.push(9);
    case.marks.extend_from_within(4..8);
    let text = compare(&folder, &all(case.bytes()));
    assert!(
        text.ends_with("indices 0 1 2 3 5\ncounts 4 1 1 2\n"),
        "{text}"
    );
    for place in [22, 23] {
        let mut doubled = case.clone();
        doubled.marks[place] += 0.5;
        let files = all(doubled.bytes());
        assert_eq!(compare(&folder, &files), "refused 18\n");
        let stored = fs::read(folder.0.join("marks.bin")).expect("a file");
        assert_eq!(Some(stored), files[1]);
        // Before 8, and after 6.
        doubled.stops.clear();
        assert_eq!(compare(&folder, &all(doubled.bytes())), "refused 18\n");
        doubled.marks[0] = f64::NAN;
        assert_eq!(compare(&folder, &all(doubled.bytes())), "refused 6\n");
    }
    short_folders(&folder);
    let most = pairs::<Sheet>(&[2000]);
    for (marks, clash) in most.into_iter().step_by(5) {
        case.marks = marks;
        case.stops = vec![9; 2001];
        let text = compare(&folder, &all(case.bytes()));
        assert_eq!(text == "refused 18\n", clash);
    }
}

/// Marks of every length to 6: apart, and with one that stands at two places, with
/// one pixel and with two; each as it is, and with a bad number at the first, a
/// middle and the last place. Of five and six marks only every fifth of those with
/// a mark twice, which leaves 1,010 folders of 2,290.
fn short_folders(folder: &Folder) {
    for n in 0..=6 {
        let alone = [(flat(&apart::<Sheet>(n)), false)];
        let twice = pairs::<Sheet>(&[n]).into_iter();
        let twice = twice.step_by(if n < 5 { 1 } else { 5 });
        for (marks, clash) in alone.into_iter().chain(twice) {
            // Document 02's order 7, by hand.
            let told = match n {
                0..4 => Some(7),
                _ => clash.then_some(18),
            };
            short_folder(folder, &marks, told);
            for place in (0..4 * n).filter(|place| [0, 2 * n, 4 * n - 1].contains(place)) {
                short_folder(folder, &spoiled(&marks, place), Some(6));
            }
        }
    }
}

/// These marks with their stop list; and with an empty one, which is told where
/// nothing else is. The files stay as they were.
fn short_folder(folder: &Folder, marks: &[f64], told: Option<u32>) {
    let mut case = example::sheet();
    case.marks = marks.to_vec();
    for (stops, told) in [(marks.len() / 4 + 1, told), (0, told.or(Some(8)))] {
        case.stops = vec![9; stops];
        let files = all(case.bytes());
        let text = compare(folder, &files);
        match told {
            Some(number) => assert_eq!(text, format!("refused {number}\n"), "{marks:?}"),
            None => assert!(!text.contains("refused"), "{marks:?}: {text}"),
        }
        let stored = FILES.map(|name| fs::read(folder.0.join(name)).ok());
        assert!(stored == files);
    }
}

/// 01's worked run as the program's own check has it: a record without a ratio.
#[test]
fn the_programs_own_files() {
    let data = Path::new(env!("CARGO_MANIFEST_DIR")).join("../../crates/pickmarks/data");
    let bytes = example::sheet().short_bytes().expect("ratio 1");
    assert_eq!(bytes.options.len(), 32);
    for (name, bytes) in FILES.iter().zip(all(bytes)) {
        let there = fs::read(data.join(name)).expect("a file");
        assert!(Some(there) == bytes, "{name} differs");
    }
}

/// The most marks, with their stop list exact, short and too long.
#[test]
fn two_thousand_marks() {
    let folder = Folder::new("marks");
    let bytes = reference(&mut Random::new(62), 0).bytes();
    assert_eq!(bytes.marks.len(), 64_000);
    for stops in [8004, 8003, 8005, 8000, 8008] {
        let mut files = all(bytes.clone());
        files[2].as_mut().expect("stops").resize(stops, 0);
        let text = compare(&folder, &files);
        assert_eq!(text == "refused 8\n", stops != 8004);
    }
}

/// A folder in place of a file: it opens, can't be read, and so is empty.
#[test]
fn a_folder_for_a_file() {
    for (place, name) in FILES.iter().enumerate() {
        let folder = Folder::new(&format!("folder{place}"));
        let mut files = all(example::sheet().bytes());
        files[place] = None;
        folder.fill(&files);
        fs::create_dir(folder.0.join(name)).expect("a folder");
        let mut bytes = example::sheet().bytes();
        let parts = [
            &mut bytes.options,
            &mut bytes.marks,
            &mut bytes.stops,
            &mut bytes.trials,
        ];
        parts.into_iter().nth(place).expect("a part").clear();
        assert_eq!(folder.run(), printed(&bytes.inputs()), "{name}");
    }
}
