//! `from-aut`: .aut files to model texts with one numbering of channels.

use crate::arguments::{Form, Given};
use crate::aut;
use crate::commands::build::{write_all, Written};
use crate::files;
use crate::origin::{Kind, Read};
use crate::outcome::{Answer, Failure, Misplaced};
use crate::source::{Named, Places, Source};
use std::path::Path;

pub const FORM: Form = Form { command: "from-aut", values: &["--into", "--names"], flags: &[] };

pub fn run(given: &Given) -> Answer {
    let mut sources = Vec::new();
    for file in given.some_files()? {
        sources.push(read(file)?);
    }
    write_all(&sources, given)
}

/// An .aut file as a model of one leaf, named after the file.
fn read(file: &Path) -> Result<Written, Failure> {
    let (read, text) = Read::text(Kind::Aut, file)?;
    let aut = aut::parse(&text).map_err(|wrong| wrong.within(file))?;
    let stem: String = files::stem(file).replace(|c: char| c.is_control(), "_");
    let name = Named { name: if stem.is_empty() { "leaf".to_string() } else { stem }, line: 1, column: 1 };
    let mut source = Source::default();
    source
        .add_aut(name, &aut, Places::Own)
        .map_err(|sentence| Misplaced::new(1, 1, sentence).within(file))?;
    Ok(Written { file: file.to_path_buf(), source, read: vec![read] })
}
