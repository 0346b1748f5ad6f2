//! Writes the files of samples/.

use finchchaise_samples::samples;
use std::path::Path;
use std::{fs, io};

fn main() -> io::Result<()> {
    let folder = Path::new(env!("CARGO_MANIFEST_DIR")).join("../../samples");
    for sample in samples() {
        fs::write(folder.join(sample.name), sample.bytes)?;
    }
    Ok(())
}
