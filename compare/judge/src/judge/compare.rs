//! Runs the scripts of a folder and holds the answers against the stored ones.

use std::fs;
use std::path::{Path, PathBuf};

use super::answers;
use super::record::{Record, HEADER};

/// The scripts of a folder, by name.
fn scripts(dir: &str) -> Result<Vec<PathBuf>, String> {
    let mut scripts = Vec::new();
    for entry in fs::read_dir(dir).map_err(|e| format!("{dir}: {e}"))? {
        let path = entry.map_err(|e| e.to_string())?.path();
        if path.extension().is_some_and(|e| e == "script") {
            scripts.push(path);
        }
    }
    if scripts.is_empty() {
        return Err(format!("{dir} holds no scripts"));
    }
    scripts.sort();
    Ok(scripts)
}

/// For a planted fault: prints the first difference and fails if there is none.
pub fn find(dir: &str) -> Result<(), String> {
    for path in scripts(dir)? {
        if let Some(text) = difference(&path)? {
            println!("{text}");
            return Ok(());
        }
    }
    Err("no difference".to_owned())
}

/// Fails with the number of scripts that differ and the first difference.
pub fn folder(dir: &str) -> Result<(), String> {
    let scripts = scripts(dir)?;
    let (mut differ, mut first) = (0, None);
    for path in &scripts {
        if let Some(text) = difference(path)? {
            differ += 1;
            first.get_or_insert(text);
        }
    }
    match first {
        None => {
            println!("{} scripts, all answers equal", scripts.len());
            Ok(())
        }
        Some(text) => Err(format!("{differ} of {} scripts differ; first: {text}", scripts.len())),
    }
}

fn difference(path: &Path) -> Result<Option<String>, String> {
    let read = |p: &Path| fs::read(p).map_err(|e| format!("{}: {e}", p.display()));
    let script = read(path)?;
    let stored = read(&path.with_extension("answers"))?;
    let (given, ends) = answers::run(&script)?;
    if given == stored {
        return Ok(None);
    }
    let same = given.iter().zip(&stored).take_while(|(a, b)| a == b).count();
    let call = ends.iter().take_while(|end| **end <= same).count();
    let name = path.file_name().unwrap_or_default().to_string_lossy();
    Ok(Some(format!("{name} call {call} ({})", name_of(&script, call))))
}

/// The name of a script's call.
fn name_of(script: &[u8], call: usize) -> String {
    let mut rest = &script[HEADER..];
    for _ in 0..call {
        match Record::read(rest) {
            Some((_, after)) => rest = after,
            None => return "past the end".to_owned(),
        }
    }
    Record::read(rest).map_or("past the end".to_owned(), |(r, _)| {
        format!("{} on object {}", r.call.name(r.object), r.object)
    })
}
