//! `build`: the readable form to model texts, and back.

use crate::arguments::{Form, Given};
use crate::assemble::{assemble, declare, Built};
use crate::aut::{self, Aut};
use crate::commands::check::size;
use crate::culprit;
use crate::files;
use crate::load::load;
use crate::names::Names;
use crate::numbering::Numbering;
use crate::origin::{Kind, Origin, Read};
use crate::outcome::{capital, fail, Answer, Failure, Outcome, Stopped};
use crate::output;
use crate::proved;
use crate::readable;
use crate::refusals;
use crate::source::Source;
use crate::syntax;
use std::cell::RefCell;
use std::path::{Path, PathBuf};

pub const FORM: Form = Form { command: "build", values: &["--into", "--names", "--out"], flags: &["--text"] };

/// A file and what is written in it.
pub struct Written {
    pub file: PathBuf,
    pub source: Source,
    /// The file itself, then those that it names.
    pub read: Vec<Read>,
}

pub fn run(given: &Given) -> Answer {
    if given.flag("--text") {
        return to_text(given);
    }
    if given.value("--out").is_some() {
        return fail(
            "--out names the file of 'build --text'; name a folder for .hex and .names files with --into.",
        );
    }
    let mut sources = Vec::new();
    for file in given.some_files()? {
        readable_form(file)?;
        sources.push(readable_file(file)?);
    }
    write_all(&sources, given)
}

fn readable_file(file: &Path) -> Result<Written, Failure> {
    let (own, text) = Read::text(Kind::Model, file)?;
    let read = RefCell::new(vec![own]);
    let open = |name: &str| open_aut(file, name, &mut read.borrow_mut());
    let source = syntax::parse(&text, &open).map_err(|wrong| wrong.within(file))?;
    Ok(Written { file: file.to_path_buf(), source, read: read.into_inner() })
}

/// Files in the other forms are told by their endings.
fn readable_form(file: &Path) -> Result<(), Failure> {
    let name = file.display();
    match file.extension().and_then(|e| e.to_str()) {
        Some("hex") => fail(format!("{name} is a model text by its ending; 'seipolku build --text {name}' writes it in the readable form.")),
        Some("aut") => fail(format!("{name} is an .aut file by its ending; 'seipolku from-aut {name}' makes a model text of it.")),
        Some("names") => fail(format!("{name} is a name table by its ending; give the file of the readable form, such as {}.", files::beside(file, "model", None).display())),
        _ => Ok(()),
    }
}

/// An .aut file beside the one that names it, noted among those that were read.
fn open_aut(file: &Path, name: &str, all: &mut Vec<Read>) -> Result<Aut, String> {
    let path = file.with_file_name(name);
    let (read, text) = Read::text(Kind::Aut, &path).map_err(|failure| failure.0)?;
    all.push(read);
    aut::parse(&text).map_err(|wrong| wrong.within(&path).0)
}

/// The numbering to start with: that of --names, or an empty one.
fn numbering(given: &Given) -> Result<Numbering, Failure> {
    let Some(file) = given.path("--names") else { return Ok(Numbering::default()) };
    let names = Names::parse(&files::read_text(file)?, None).map_err(|wrong| wrong.within(file))?;
    Ok(Numbering::of(&names))
}

/// Numbers the channels of all files together, asks the library whether it accepts each text, and writes them all.
pub fn write_all(sources: &[Written], given: &Given) -> Answer {
    let mut numbering = numbering(given)?;
    for Written { file, source, .. } in sources {
        declare(source, &mut numbering).map_err(|wrong| wrong.within(file))?;
    }
    numbering.settle();
    let mut built = Vec::new();
    for Written { file, source, .. } in sources {
        built.push(accepted(file, assemble(source, &numbering).map_err(|wrong| wrong.within(file))?)?);
    }
    let target = |w: &Written, ending: &str| files::beside(&w.file, ending, given.path("--into"));
    let targets: Vec<PathBuf> =
        sources.iter().flat_map(|w| ["hex", "names"].map(|ending| target(w, ending))).collect();
    let read = sources.iter().flat_map(|w| &w.read).map(|read| read.file.clone());
    let read: Vec<PathBuf> = read.chain(given.path("--names").map(Path::to_path_buf)).collect();
    let advice = "write into another folder with --into, or copy the file that is read to another name";
    output::apart(&read, &targets, advice)?;
    let mut outcome = Outcome::default();
    for ((source, built), targets) in sources.iter().zip(built).zip(targets.chunks_exact(2)) {
        write(source, built, [&targets[0], &targets[1]], &mut outcome)?;
    }
    Ok(outcome)
}

/// Writes a text and its name table, in which it stands what the text was built from.
fn write(
    source: &Written,
    built: Built,
    [hex, table]: [&Path; 2],
    told: &mut Outcome,
) -> Result<(), Failure> {
    let Built { model, mut names, .. } = built;
    let text = model.encode();
    files::write(hex, &text)?;
    match Origin::recorded(&text, &source.read, files::folder(table)) {
        Some(origin) => names.origin = origin,
        None => told.notes.push(format!(
            "note: the path of {} can't be written into a name table, so that a change of it will not be noticed.",
            source.file.display()
        )),
    }
    files::write(table, &names.print(&files::name(hex)))?;
    told.text += &format!("wrote {} and {}: {}\n", hex.display(), table.display(), size(&model));
    Ok(())
}

/// The library's refusal of a built text, at the line of the file that it comes from.
fn accepted(file: &Path, built: Built) -> Result<Built, Stopped> {
    let Some(refusal) = proved::refusal(built.model.encode().as_bytes()) else { return Ok(built) };
    let number = usize::try_from(refusal.line).unwrap_or(usize::MAX);
    let line = built.origins.get(number).copied().unwrap_or(1);
    let refused = built.model.up_to(number);
    let size = culprit::size(&refused).map(|size| format!(" {}.", capital(&size)));
    let advice = match refused.layout().is_some_and(|layout| layout.added() > 0) {
        true => "Use fewer or smaller leaves, or fewer enables and disables, in this process: enable adds one bit and disable two.",
        false => "Use fewer or smaller leaves in this process.",
    };
    Err(Stopped::Refused(format!(
        "{}, line {line}, column 1: refusal {}: {}.{} {advice}",
        file.display(),
        refusal.fault.number(),
        refusals::rule(&refusal),
        size.unwrap_or_default()
    )))
}

fn to_text(given: &Given) -> Answer {
    if given.value("--into").is_some() || given.value("--names").is_some() {
        return fail("'build --text' takes neither --into nor --names; name its file with --out.");
    }
    let loaded = load(given.one_file()?)?;
    let text = readable::print(&loaded.model, &loaded.names, &files::name(&loaded.path));
    output::give(text, given.path("--out"), &loaded.read())
}
