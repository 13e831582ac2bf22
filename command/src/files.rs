//! Reading and writing files, with sentences for what goes wrong.

use crate::outcome::{fail, Failure, Misplaced};
use std::fs::{self, File};
use std::io::Read;
use std::path::{Component, Path, PathBuf};

/// More than any model in any of the forms needs; a model text has at most 32,704 bytes.
const MOST_BYTES: u64 = 1 << 20;

/// The byte order mark.
const MARK: &[u8] = "\u{feff}".as_bytes();

pub fn read(path: &Path) -> Result<Vec<u8>, Failure> {
    let mut bytes = Vec::new();
    let read = File::open(path).and_then(|file| file.take(MOST_BYTES + 1).read_to_end(&mut bytes));
    if let Err(error) = read {
        return fail(format!(
            "{} can't be read: {error}. Give the name of a file that exists and may be read.",
            path.display()
        ));
    }
    if bytes.len() as u64 > MOST_BYTES {
        return fail(format!(
            "{} has more than {MOST_BYTES} bytes, which no model has. Give a smaller file.",
            path.display()
        ));
    }
    Ok(bytes)
}

/// A file of UTF-8 text.
pub fn read_text(path: &Path) -> Result<String, Failure> {
    text_of(path, read(path)?)
}

/// The bytes of a file as UTF-8 text, without the mark that some editors put before it.
pub fn text_of(path: &Path, mut bytes: Vec<u8>) -> Result<String, Failure> {
    if bytes.starts_with(MARK) {
        bytes.drain(..MARK.len());
    }
    String::from_utf8(bytes).map_err(|error| {
        let good =
            String::from_utf8_lossy(&error.as_bytes()[..error.utf8_error().valid_up_to()]).into_owned();
        let line = good.matches('\n').count() + 1;
        let column = good.rsplit('\n').next().unwrap_or("").chars().count() + 1;
        let sentence = "this byte is not UTF-8 text. Save the file as UTF-8, or give another file.";
        Misplaced::new(line, column, sentence).within(path)
    })
}

pub fn write(path: &Path, text: &str) -> Result<(), Failure> {
    fs::write(path, text).map_err(|error| {
        Failure(format!(
            "{} can't be written: {error}. Name a folder that exists and that you may write to.",
            path.display()
        ))
    })
}

/// The file of the same name with another ending, in the folder if one is given.
pub fn beside(path: &Path, ending: &str, folder: Option<&Path>) -> PathBuf {
    let renamed = path.with_extension(ending);
    match (folder, renamed.file_name()) {
        (Some(folder), Some(name)) => folder.join(name),
        _ => renamed,
    }
}

/// The folder that a file is in.
pub fn folder(path: &Path) -> &Path {
    match path.parent() {
        Some(parent) if parent != Path::new("") => parent,
        _ => Path::new("."),
    }
}

/// The way from a folder to a file, if it can be written as text.
pub fn relative(from: &Path, file: &Path) -> Option<String> {
    let from = from.canonicalize().ok()?;
    let to = folder(file).canonicalize().ok()?;
    let shared = from.components().zip(to.components()).take_while(|(a, b)| a == b).count();
    let up = from.components().skip(shared).map(|_| Component::ParentDir);
    let way: PathBuf = up.chain(to.components().skip(shared)).collect();
    let way = way.join(file.file_name()?);
    way.to_str().filter(|text| !text.contains(char::is_control)).map(str::to_string)
}

/// The same file without steps up, where that leads to it.
pub fn straight(path: PathBuf) -> PathBuf {
    let mut shorter = PathBuf::new();
    for part in path.components() {
        let up = part == Component::ParentDir
            && matches!(shorter.components().next_back(), Some(Component::Normal(_)));
        if !up || !shorter.pop() {
            shorter.push(part);
        }
    }
    match (path.canonicalize(), shorter.canonicalize()) {
        (Ok(one), Ok(other)) if one == other => shorter,
        _ => path,
    }
}

/// The file's last part.
pub fn name(path: &Path) -> String {
    path.file_name().map(|n| n.to_string_lossy().into_owned()).unwrap_or_default()
}

/// The file's name without folder and ending.
pub fn stem(path: &Path) -> String {
    path.file_stem().map(|s| s.to_string_lossy().into_owned()).unwrap_or_default()
}
