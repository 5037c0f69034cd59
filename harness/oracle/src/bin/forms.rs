//! Writes the fixed sample of the form entries' answers; `--text` prints it.

use oracle::{forms, records};

fn main() -> std::io::Result<()> {
    records::write(forms::FILE, forms::records(), forms::line)
}
