//! What a model text was built from, recorded in its name table by content, so that a text whose source has changed is known.

use crate::files;
use crate::names::Names;
use crate::outcome::{fail, Failure};
use crate::output;
use crate::sha256;
use crate::words::for_shell;
use std::path::{Path, PathBuf};

#[derive(Clone, Copy, Debug, PartialEq, Eq)]
pub enum Kind {
    Model,
    Aut,
}

impl Kind {
    pub fn word(self) -> &'static str {
        match self {
            Kind::Model => "model",
            Kind::Aut => "aut",
        }
    }

    pub fn of(word: &str) -> Option<Kind> {
        [Kind::Model, Kind::Aut].into_iter().find(|kind| kind.word() == word)
    }

    fn command(self) -> &'static str {
        match self {
            Kind::Model => "build",
            Kind::Aut => "from-aut",
        }
    }
}

/// A file that was read, with the digest of its content.
#[derive(Clone, Debug, PartialEq, Eq)]
pub struct Read {
    pub kind: Kind,
    pub file: PathBuf,
    pub digest: String,
}

impl Read {
    /// Reads a file of text.
    pub fn text(kind: Kind, file: &Path) -> Result<(Read, String), Failure> {
        let bytes = files::read(file)?;
        let read = Read { kind, file: file.to_path_buf(), digest: sha256::digest(&bytes) };
        Ok((read, files::text_of(file, bytes)?))
    }
}

/// The digest of the text that was built, and the files that it was built from: first the one that the command was given.
/// In a name table their paths start at the table's folder.
#[derive(Clone, Debug, Default, PartialEq, Eq)]
pub struct Origin {
    pub text: Option<String>,
    pub sources: Vec<Read>,
}

impl Origin {
    /// What a table in the folder records; nothing if a path can't be written there.
    pub fn recorded(text: &str, sources: &[Read], folder: &Path) -> Option<Origin> {
        let mut origin = Origin { text: Some(sha256::digest(text.as_bytes())), sources: Vec::new() };
        for read in sources {
            let file = PathBuf::from(files::relative(folder, &read.file)?);
            // One file may have been read by two paths.
            if origin.sources.iter().all(|earlier| earlier.file != file) {
                origin.sources.push(Read { file, ..read.clone() });
            }
        }
        Some(origin)
    }

    /// The lines of the name table.
    pub fn print(&self) -> String {
        let mut lines = String::new();
        if let Some(digest) = &self.text {
            lines += &format!("text {digest}\n");
        }
        for Read { kind, file, digest } in &self.sources {
            let file = crate::words::spelled(&file.to_string_lossy());
            lines += &format!("source {} {file} {digest}\n", kind.word());
        }
        lines
    }
}

/// A model text with its name table.
pub struct Checked<'a> {
    pub path: &'a Path,
    pub text: &'a [u8],
    pub names: &'a Names,
}

impl Checked<'_> {
    fn table(&self) -> PathBuf {
        files::beside(self.path, "names", None)
    }

    /// The recorded sources, by paths that lead there from here.
    pub fn sources(&self) -> Vec<Read> {
        let folder = self.path.parent().unwrap_or(Path::new(""));
        let located = |read: &Read| Read { file: files::straight(folder.join(&read.file)), ..read.clone() };
        self.names.origin.sources.iter().map(located).collect()
    }

    /// The source, if it is recorded but not where the table says.
    pub fn missing(&self) -> Option<PathBuf> {
        self.sources().into_iter().map(|read| read.file).find(|file| !file.is_file())
    }

    /// Refuses a text that is not what its source gives today. A source that is gone or was moved tells nothing. `other` is
    /// the table of the model that this one is compared with.
    pub fn fresh(&self, other: Option<&Path>) -> Result<(), Failure> {
        let sources = self.sources();
        let Some(main) = sources.first().filter(|main| main.file.is_file()) else { return Ok(()) };
        for source in sources.iter().filter(|source| source.file.is_file()) {
            if sha256::digest(&files::read(&source.file)?) != source.digest {
                let what = format!(
                    "{} has changed since {} was built from it",
                    source.file.display(),
                    self.path.display()
                );
                return self.stale(&what, main, other);
            }
        }
        let built = self.names.origin.text.as_deref();
        if built.is_some_and(|digest| digest != sha256::digest(self.text)) {
            let what = format!(
                "{} is not the text that was built from {}",
                self.path.display(),
                main.file.display()
            );
            return self.stale(&what, main, other);
        }
        Ok(())
    }

    fn stale(&self, what: &str, main: &Read, other: Option<&Path>) -> Result<(), Failure> {
        let folder = files::folder(self.path);
        let mut command = format!("seipolku {} {}", main.kind.command(), for_shell(&main.file));
        let target = self.path.with_file_name(files::name(&main.file)).with_extension("hex");
        if !output::same(&files::beside(&main.file, "hex", None), &target) {
            command += &format!(" --into {}", for_shell(folder));
        }
        if let Some(table) = other.filter(|table| table.exists() && !output::same(table, &self.table())) {
            command += &format!(" --names {}", for_shell(table));
        }
        let writes = match files::name(&target) == files::name(self.path) {
            true => String::new(),
            false => format!(", which writes {}", target.display()),
        };
        fail(format!(
            "{what}. Rebuild it with '{command}'{writes}; or, to keep the text as it is, remove the lines 'text' and 'source' from {}.",
            self.table().display()
        ))
    }
}
