//! Writes the fixed sample of the sheet entries' answers; `--text` prints it.

use oracle::{records, sheets};

fn main() -> std::io::Result<()> {
    records::write(sheets::FILE, sheets::records(), sheets::line)
}
