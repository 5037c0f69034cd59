//! What the lists of recorded answers share: records of whole words, written
//! to a file that a program replays without Rust, or printed as lines.

use std::path::Path;

/// A float as its bit pattern, every NaN as one.
pub fn bits(x: f64) -> u64 {
    if x.is_nan() {
        0x7ff8_0000_0000_0000
    } else {
        x.to_bits()
    }
}

/// Writes floats from a word on.
pub fn put(record: &mut [u64], from: usize, numbers: &[f64]) {
    for (place, &x) in numbers.iter().enumerate() {
        record[from + place] = bits(x);
    }
}

/// So many floats from a word on, as a line has them.
pub fn floats(record: &[u64], from: usize, count: u64) -> String {
    record[from..from + count as usize]
        .iter()
        .map(|&word| format!("{:e}", f64::from_bits(word)))
        .collect::<Vec<_>>()
        .join(" ")
}

/// A file's bytes: every word little-endian.
pub fn bytes<const N: usize>(records: Vec<[u64; N]>) -> Vec<u8> {
    let words = records.into_iter().flatten();
    words.flat_map(u64::to_le_bytes).collect()
}

/// Writes the records to a file below crates/; with `--text` among the words
/// of the command, prints them as lines instead.
pub fn write<const N: usize>(
    path: &str,
    records: Vec<[u64; N]>,
    line: impl Fn(&[u64; N]) -> String,
) -> std::io::Result<()> {
    if std::env::args().any(|word| word == "--text") {
        for record in &records {
            println!("{}", line(record));
        }
        return Ok(());
    }
    let file = Path::new(env!("CARGO_MANIFEST_DIR"))
        .join("../../crates")
        .join(path);
    std::fs::create_dir_all(file.parent().expect("a folder"))?;
    println!("{} records", records.len());
    std::fs::write(file, bytes(records))
}
