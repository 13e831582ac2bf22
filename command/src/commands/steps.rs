//! `steps`: the derived steps of a model.

use crate::arguments::{Form, Given};
use crate::load::load;
use crate::outcome::{counted, Answer, Outcome};
use crate::reach::{self, Listed, MOST, PART};
use crate::words::action;

pub const FORM: Form = Form { command: "steps", values: &["--line", "--most"], flags: &["--all"] };

pub fn run(given: &Given) -> Answer {
    let loaded = load(given.one_file()?)?.up_to(given.number("--line")?)?;
    let most = given.number("--most")?.unwrap_or(MOST);
    let (listed, kind) = match given.flag("--all") {
        true => (reach::every(&loaded, most)?, "state"),
        false => (reach::reachable(&loaded, most, PART)?, "reachable state"),
    };
    let states = counted(listed.codes.len() as u64, kind);
    let steps = counted(listed.steps.len() as u64, "step");
    let mut text = format!("{states}, {steps}\n");
    for index in 0..listed.codes.len() {
        text += &state(&listed, index, &loaded.names);
    }
    Ok(Outcome::text(text))
}

fn state(listed: &Listed, index: usize, names: &crate::names::Names) -> String {
    let word = |i: usize| listed.space.words(listed.codes[i], names);
    let mut text = format!("{}\n", word(index));
    for (_, number, to) in listed.from(index) {
        text += &format!("  -- {} --> {}\n", action(*number, names), word(*to));
    }
    text
}
