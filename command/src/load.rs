//! A model file with its name table, for the subcommands that speak of its parts.

use crate::files;
use crate::frames::Model;
use crate::names::Names;
use crate::origin::Checked;
use crate::outcome::{fail, Failure, Stopped};
use crate::proved;
use crate::refusals;
use std::path::{Path, PathBuf};

pub struct Loaded {
    pub path: PathBuf,
    pub text: Vec<u8>,
    pub model: Model,
    /// The line that the model ends at, if one was asked for.
    pub line: Option<u64>,
    /// The name table beside the text, if there is one.
    pub table: Option<Names>,
    /// Names for everything in the model.
    pub names: Names,
}

/// Reads a text that the library accepts and the table of names beside it, if there is one.
pub fn load(path: &Path) -> Result<Loaded, Stopped> {
    Ok(of_accepted(path, accepted(path)?, None)?)
}

/// The same for two models that are compared.
pub fn load_both(files: [&Path; 2]) -> Result<[Loaded; 2], Stopped> {
    let texts = [accepted(files[0])?, accepted(files[1])?];
    Ok(both_of_accepted(files, texts)?)
}

fn accepted(path: &Path) -> Result<Vec<u8>, Stopped> {
    let text = files::read(path)?;
    match proved::refusal(&text) {
        Some(refusal) => Err(Stopped::Refused(refusals::of_text(&refusal, path, &text))),
        None => Ok(text),
    }
}

/// Two models that are compared, whose texts the library accepts.
pub fn both_of_accepted(files: [&Path; 2], texts: [Vec<u8>; 2]) -> Result<[Loaded; 2], Failure> {
    let tables = files.map(|file| files::beside(file, "names", None));
    let [left, right] = texts;
    Ok([of_accepted(files[0], left, Some(&tables[1]))?, of_accepted(files[1], right, Some(&tables[0]))?])
}

/// A model whose text the library accepts; `other` is the name table of one that it is compared with.
fn of_accepted(path: &Path, text: Vec<u8>, other: Option<&Path>) -> Result<Loaded, Failure> {
    let model = decoded(path, &text)?;
    let table = names_beside(path, &model)?;
    if let Some(names) = &table {
        Checked { path, text: &text, names }.fresh(other)?;
    }
    let names = table.clone().unwrap_or_default().completed(&model);
    Ok(Loaded { path: path.to_path_buf(), text, model, line: None, table, names })
}

pub fn decoded(path: &Path, text: &[u8]) -> Result<Model, Failure> {
    match Model::decode(text) {
        Some(model) => Ok(model),
        None => fail(format!("{} was accepted but can't be decoded; please report this.", path.display())),
    }
}

pub fn names_beside(path: &Path, model: &Model) -> Result<Option<Names>, Failure> {
    let table = files::beside(path, "names", None);
    if !table.exists() || table == path {
        return Ok(None);
    }
    let text = files::read_text(&table)?;
    Names::parse(&text, Some(model)).map(Some).map_err(|wrong| wrong.within(&table))
}

impl Loaded {
    /// The files that were read: the text, its name table and what it was built from, as far as it is there.
    pub fn read(&self) -> Vec<PathBuf> {
        let mut all = vec![self.path.clone()];
        if let Some(names) = &self.table {
            all.push(files::beside(&self.path, "names", None));
            let checked = Checked { path: &self.path, text: &self.text, names };
            all.extend(checked.sources().into_iter().map(|read| read.file).filter(|file| file.is_file()));
        }
        all
    }

    /// The model by its file and line.
    pub fn called(&self) -> String {
        let file = self.path.display();
        self.line.map_or_else(|| file.to_string(), |line| format!("line {line} of {file}"))
    }

    /// The model that ends at a line, or the whole.
    pub fn up_to(self, asked: Option<u64>) -> Result<Loaded, Failure> {
        let Some(line) = asked else { return Ok(self) };
        let last = self.model.frames.len() - 1;
        if line > last as u64 {
            return fail(format!(
                "{} has no line {line}; its lines go from 0 to {last}.",
                self.path.display()
            ));
        }
        let model = self.model.up_to(line as usize);
        let text = model.encode().into_bytes();
        Ok(Loaded { model, text, line: asked, ..self })
    }
}
