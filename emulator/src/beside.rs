//! A file that is written beside its name and takes it when it is whole.

use std::fs::{self, File};
use std::io::{self, Write};
use std::path::Path;

/// The name beside it.
pub fn name(out: &str) -> String {
    format!("{out}.new")
}

/// Writes a file: under the name there is the old one, or the whole new one. What is there and is no plain
/// file, such as a device, is not replaced but written to.
pub fn write(out: &str, bytes: &[u8]) -> Result<(), String> {
    let told = |error: io::Error| format!("{out}: {error}");
    if fs::metadata(out).is_ok_and(|found| !found.is_file()) {
        return fs::write(out, bytes).map_err(told);
    }
    let beside = name(out);
    let named = synced(&beside, bytes).and_then(|()| fs::rename(&beside, out));
    if let Err(error) = named {
        // Where it could not be made there is nothing to remove.
        let _ = fs::remove_file(&beside);
        return Err(told(error));
    }
    let folder = Path::new(out).parent().filter(|folder| !folder.as_os_str().is_empty());
    let folder = File::open(folder.unwrap_or(Path::new(".")));
    folder.and_then(|folder| folder.sync_all()).map_err(told)
}

fn synced(path: &str, bytes: &[u8]) -> io::Result<()> {
    let mut file = File::create(path)?;
    file.write_all(bytes)?;
    file.sync_all()
}
