//! Input of the companions: a named file, or what stands on standard input.

use std::{fs, io};

/// The input's name, for complaints, and its text.
pub fn named_or_standard(file: Option<String>) -> Result<(String, String), String> {
    let (name, text) = match file {
        Some(file) => {
            let text = fs::read_to_string(&file);
            (file, text)
        }
        None => (
            "standard input".to_string(),
            io::read_to_string(io::stdin()),
        ),
    };
    match text {
        Ok(text) => Ok((name, text)),
        Err(error) => Err(format!("{name} can't be read: {error}")),
    }
}
