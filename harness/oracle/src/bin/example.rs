//! Writes the sheet of examples/.

fn main() -> std::io::Result<()> {
    let (folder, files) = oracle::example::files();
    std::fs::create_dir_all(&folder)?;
    for (name, bytes) in files {
        println!("{name}: {} bytes", bytes.len());
        std::fs::write(folder.join(name), bytes)?;
    }
    Ok(())
}
