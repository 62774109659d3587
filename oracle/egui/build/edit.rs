//! An edit of one place, for tools/mutants: the file's name, the place in bytes, the text there, and what stands there instead, a line each.

use std::{env, fs};

/// The text with the edit that EGUI_EDIT names, if that is of this file.
pub fn edited(name: &str, text: String) -> Result<String, String> {
    let Some(path) = env::var_os("EGUI_EDIT") else {
        return Ok(text);
    };
    println!("cargo::rerun-if-changed={}", path.display());
    let edit = fs::read_to_string(&path).map_err(|why| format!("{}: {why}", path.display()))?;
    let lines: Vec<&str> = edit.lines().collect();
    let [file, place, old, new] = lines[..] else {
        return Err(format!("{}: an edit has four lines", path.display()));
    };
    if file != name {
        return Ok(text);
    }
    let place: usize = place.parse().map_err(|why| format!("{place}: {why}"))?;
    let (old, new) = (unescaped(old), unescaped(new));
    match text.get(place..) {
        Some(rest) if rest.starts_with(&old) => {
            Ok([&text[..place], &new, &rest[old.len()..]].concat())
        }
        _ => Err(format!("{name}: {old:?} does not stand at byte {place}")),
    }
}

/// `\n` for a new line and `\\` for a backslash.
fn unescaped(line: &str) -> String {
    line.replace("\\\\", "\0")
        .replace("\\n", "\n")
        .replace('\0', "\\")
}
