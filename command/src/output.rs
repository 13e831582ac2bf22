//! Writing files. None of those that were read is written over, by whatever path it is named.

use crate::files;
use crate::outcome::{fail, Answer, Failure, Outcome};
use std::fs;
use std::os::unix::fs::MetadataExt;
use std::path::{Path, PathBuf};

/// Which file a path leads to: device and inode, or the place of a file that is not there yet.
#[derive(PartialEq, Eq)]
enum Identity {
    There(u64, u64),
    New(PathBuf),
}

/// Nothing for what is no file, such as a terminal, where nothing is lost.
fn identity(path: &Path) -> Option<Identity> {
    match fs::metadata(path) {
        Ok(found) if found.is_file() => Some(Identity::There(found.dev(), found.ino())),
        Ok(_) => None,
        Err(_) => {
            let folder = files::folder(path).canonicalize().ok()?;
            Some(Identity::New(folder.join(path.file_name()?)))
        }
    }
}

/// Whether two paths lead to one file.
pub fn same(one: &Path, other: &Path) -> bool {
    match (identity(one), identity(other)) {
        (Some(one), Some(other)) => one == other,
        _ => false,
    }
}

/// No target is a file that was read, or another target.
pub fn apart(read: &[PathBuf], targets: &[PathBuf], advice: &str) -> Result<(), Failure> {
    for (index, target) in targets.iter().enumerate() {
        if let Some(input) = read.iter().find(|input| same(input, target)) {
            return fail(format!(
                "{} would be overwritten, and {} is read here; {advice}.",
                target.display(),
                if *input == *target { "it".to_string() } else { format!("as {} it", input.display()) }
            ));
        }
        if targets[..index].iter().any(|earlier| same(earlier, target)) {
            return fail(format!(
                "two of the files would both become {}; build them apart, or rename one.",
                target.display()
            ));
        }
    }
    Ok(())
}

/// Prints the text, or writes it to the file that --out names.
pub fn give(text: String, out: Option<&Path>, read: &[PathBuf]) -> Answer {
    let Some(file) = out else { return Ok(Outcome::text(text)) };
    apart(read, &[file.to_path_buf()], "name another file with --out")?;
    files::write(file, &text)?;
    Ok(Outcome::text(format!("wrote {}\n", file.display())))
}
