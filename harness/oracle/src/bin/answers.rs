//! Writes the fixed sample of the leaves' answers; `--text` prints it.

use oracle::{answers, records};

fn main() -> std::io::Result<()> {
    records::write(answers::FILE, answers::records(), answers::line)
}
