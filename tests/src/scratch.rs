//! What the programs of the tests have in common: options with numbers, and a folder that goes when they end.

use std::path::{Path, PathBuf};

/// The number behind the option `name`, or `otherwise` where it is not given.
pub fn option(name: &str, otherwise: u64) -> u64 {
    let words: Vec<String> = std::env::args().collect();
    match words.iter().position(|word| word == name) {
        Some(place) => words.get(place + 1).and_then(|word| word.parse().ok()).unwrap_or_else(|| {
            eprintln!("{name} needs a number");
            std::process::exit(2);
        }),
        None => otherwise,
    }
}

/// A folder of this process, in memory where there is such a place.
pub struct Folder(pub PathBuf);

impl Folder {
    pub fn new(name: &str) -> Result<Folder, String> {
        let memory = Path::new("/dev/shm");
        let base = if memory.is_dir() { memory.to_path_buf() } else { std::env::temp_dir() };
        let folder = Folder(base.join(format!("{name}-{}", std::process::id())));
        std::fs::create_dir_all(&folder.0).map_err(|error| error.to_string())?;
        Ok(folder)
    }
}

impl Drop for Folder {
    fn drop(&mut self) {
        let _ = std::fs::remove_dir_all(&self.0);
    }
}
