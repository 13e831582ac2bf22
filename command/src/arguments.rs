//! The words of the command line: files, options with a value, flags.

use crate::frames::MOST_LINES;
use crate::outcome::{capital, fail, grouped, Failure};
use crate::proved::ENTRIES;
use std::ffi::{OsStr, OsString};
use std::path::{Path, PathBuf};

/// Which options a subcommand takes.
pub struct Form {
    pub command: &'static str,
    pub values: &'static [&'static str],
    pub flags: &'static [&'static str],
}

/// What was given.
pub struct Given {
    command: &'static str,
    pub files: Vec<PathBuf>,
    values: Vec<(&'static str, OsString)>,
    flags: Vec<&'static str>,
}

impl Given {
    pub fn read(form: &Form, words: &[OsString]) -> Result<Given, Failure> {
        let mut given =
            Given { command: form.command, files: Vec::new(), values: Vec::new(), flags: Vec::new() };
        let mut words = words.iter();
        let mut only_files = false;
        while let Some(word) = words.next() {
            let option = word.to_str().filter(|w| w.starts_with('-') && *w != "-" && !only_files);
            match option {
                None => given.files.push(PathBuf::from(word)),
                Some("--") => only_files = true,
                Some(option) => given.option(form, option, &mut words)?,
            }
        }
        Ok(given)
    }

    fn option<'a>(
        &mut self,
        form: &Form,
        word: &str,
        rest: &mut impl Iterator<Item = &'a OsString>,
    ) -> Result<(), Failure> {
        let (name, joined) = match word.split_once('=') {
            Some((name, value)) => (name, Some(OsString::from(value))),
            None => (word, None),
        };
        if let Some(flag) = form.flags.iter().find(|f| **f == name) {
            if joined.is_some() {
                return fail(format!("{name} takes no value; write {name} alone."));
            }
            self.flags.push(flag);
            return Ok(());
        }
        let Some(option) = form.values.iter().find(|v| **v == name) else {
            return fail(format!("{} has no option {name}; {}.", form.command, see_help(form.command)));
        };
        match joined.or_else(|| rest.next().cloned()) {
            Some(value) => self.values.push((option, value)),
            None => return fail(format!("{name} needs a value after it; {}.", see_help(form.command))),
        }
        Ok(())
    }

    pub fn flag(&self, name: &str) -> bool {
        self.flags.contains(&name)
    }

    /// The last value given for an option.
    pub fn value(&self, name: &str) -> Option<&OsStr> {
        self.values.iter().rev().find(|(n, _)| *n == name).map(|(_, v)| v.as_os_str())
    }

    pub fn path(&self, name: &str) -> Option<&Path> {
        self.value(name).map(Path::new)
    }

    pub fn number(&self, name: &str) -> Result<Option<u64>, Failure> {
        let Some(value) = self.value(name) else { return Ok(None) };
        let spelled = value.to_string_lossy().replace([',', '_'], "");
        match spelled.parse() {
            Ok(number) => Ok(Some(number)),
            Err(_) => fail(format!(
                "{name} takes a whole number from {}, not '{}'.",
                range(name),
                value.to_string_lossy()
            )),
        }
    }

    pub fn one_file(&self) -> Result<&Path, Failure> {
        match &self.files[..] {
            [file] => Ok(file),
            _ => self.wrong_files("one file"),
        }
    }

    pub fn two_files(&self) -> Result<[&Path; 2], Failure> {
        match &self.files[..] {
            [left, right] => Ok([left, right]),
            _ => self.wrong_files("two files, the left and the right model"),
        }
    }

    pub fn some_files(&self) -> Result<&[PathBuf], Failure> {
        match &self.files[..] {
            [] => self.wrong_files("one file or more"),
            files => Ok(files),
        }
    }

    fn wrong_files<T>(&self, wanted: &str) -> Result<T, Failure> {
        let found = self.files.len();
        fail(format!("{} takes {wanted}; {found} given. {}.", self.command, capital(&see_help(self.command))))
    }
}

/// The numbers that an option takes.
fn range(option: &str) -> String {
    match option {
        "--nodes" => format!("2 to {}", grouped(ENTRIES)),
        "--line" => format!("0 to {}", MOST_LINES - 1),
        _ => format!("0 to {}", grouped(u64::MAX)),
    }
}

fn see_help(command: &str) -> String {
    format!("'seipolku {command} --help' shows how it is used")
}
