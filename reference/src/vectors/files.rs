//! The files of vectors that a folder has.

use super::read::{read, Case};
use std::fs;
use std::path::{Path, PathBuf};

pub struct File {
    pub name: String,
    pub text: String,
    pub cases: Vec<Case>,
}

/// Reads every file that ends in .txt, in the order of their names. A folder without any is
/// refused: nothing would be checked.
pub fn files(folder: &Path) -> Result<Vec<File>, String> {
    let complaint = |error| format!("{} can't be read: {error}", folder.display());
    let mut paths = Vec::new();
    for entry in fs::read_dir(folder).map_err(complaint)? {
        paths.push(entry.map_err(complaint)?.path());
    }
    paths.retain(|path| path.extension().is_some_and(|ending| ending == "txt"));
    paths.sort();
    if paths.is_empty() {
        return Err(format!("{} has no file of vectors", folder.display()));
    }
    paths.into_iter().map(file).collect()
}

fn file(path: PathBuf) -> Result<File, String> {
    let name = path.display().to_string();
    let text = fs::read_to_string(&path).map_err(|error| format!("{name}: {error}"))?;
    let cases = read(&text).map_err(|error| format!("{name}:{}: {}", error.line, error.message))?;
    if cases.is_empty() {
        return Err(format!("{name} has no case"));
    }
    Ok(File { name, text, cases })
}
