//! `pairs`: the largest bisimulation between two models.

use crate::arguments::{Form, Given};
use crate::channels;
use crate::commands::compare::modes;
use crate::load::{load_both, Loaded};
use crate::outcome::{
    capital, counted, fail, grouped, Answer, Failure, Outcome, Stopped, DIFFERENT, EQUAL, REFUSED,
};
use crate::progress;
use crate::proved::{self, ENTRIES, LIMIT};
use crate::reach::{self, MOST_LINES};
use crate::refusals::{self, Call};
use crate::space::Space;
use crate::words::word;
use seipolku::{Mode, Root, Verdict};

pub const FORM: Form = Form {
    command: "pairs",
    values: &["--mode", "--limit", "--nodes", "--most"],
    flags: &["--by-number", "--reachable"],
};

/// How many pairs are asked for unless --most says otherwise.
const MOST_ASKED: u64 = 1_000_000;

/// Above this many look-ups, listing takes minutes.
const MOST_LOOK_UPS: u64 = 1_000_000_000;

/// What helps where no option does.
const SMALLER: &str = "make the models smaller";

/// Between which states pairs are asked for, and how many at most.
struct Asked {
    reachable: bool,
    most: u64,
}

impl Asked {
    fn of(given: &Given) -> Result<Asked, Failure> {
        let most = given.number("--most")?.unwrap_or(MOST_ASKED);
        Ok(Asked { reachable: given.flag("--reachable"), most: most.min(MOST_LOOK_UPS) })
    }

    /// The codes of both sides, if their pairs are not too many.
    fn codes(&self, models: &[Loaded; 2]) -> Result<[Vec<u64>; 2], Stopped> {
        let [left, right] = models;
        if !self.reachable {
            let spaces = [Space::of(&left.model), Space::of(&right.model)];
            self.few_enough(spaces[0].states().saturating_mul(spaces[1].states()))?;
            return Ok(spaces.map(|space| space.all_codes()));
        }
        let codes = |model| reach::reachable(model, self.most, SMALLER).map(|listed| listed.codes);
        let both = [codes(left)?, codes(right)?];
        self.few_enough(both.iter().map(|codes| codes.len() as u64).product())?;
        Ok(both)
    }

    fn few_enough(&self, pairs: u64) -> Result<(), Failure> {
        if pairs <= self.most {
            return Ok(());
        }
        let reachable = if self.reachable { "reachable " } else { "" };
        let advice = match pairs > MOST_LOOK_UPS {
            true => format!("{SMALLER}: no --most allows more than {}", grouped(MOST_LOOK_UPS)),
            false => "allow more with --most N".to_string(),
        };
        fail(format!(
            "the models have {} of {reachable}states, too many to list; the limit is {}. {}.",
            counted(pairs, "pair"),
            grouped(self.most),
            self.or_reachable(&advice)
        ))
    }

    /// An advice, after that to list reachable states only, where this was not asked for.
    fn or_reachable(&self, advice: &str) -> String {
        match self.reachable {
            true => capital(advice),
            false => format!("List the reachable ones with --reachable, or {advice}"),
        }
    }
}

pub fn run(given: &Given) -> Answer {
    let files = given.two_files()?;
    let mode = modes(given, &[Mode::Weak])?.first().copied().unwrap_or(Mode::Weak);
    let limit = given.number("--limit")?.unwrap_or(LIMIT);
    let entries = given.number("--nodes")?.unwrap_or(ENTRIES);
    let asked = Asked::of(given)?;
    let models = load_both(files)?;
    let basis = channels::basis(&models, given.flag("--by-number"))?;
    let mut table = proved::table(entries)?;
    let texts = [&models[0].text[..], &models[1].text[..]];
    let (answer, _) = progress::timed("comparing", true, || table.get()?.compare(texts[0], texts[1], limit));
    let (text, status) = match answer.map(|both| (both.verdict(mode), both)) {
        Err(refusal) => {
            let call = Call { files, texts, entries, limit, modes: &[mode] };
            (refusals::of_comparison(&refusal, &call, &mut table), REFUSED)
        }
        Ok((Verdict::Equal { largest, .. }, _)) => {
            (equal(largest, &models, &asked, mode, basis.words())?, EQUAL)
        }
        Ok((Verdict::Different { rounds }, _)) => (different(mode, rounds, basis.words()), DIFFERENT),
        Ok((Verdict::Undecided, both)) => (refusals::of_limit(&[mode], &both, limit), REFUSED),
    };
    Ok(Outcome { text, notes: basis.notes, status })
}

fn different(mode: Mode, rounds: u64, by: &str) -> String {
    let rounds = counted(rounds, "round");
    format!("{} different ({rounds}{by}): no bisimulation holds the pair of starting states.\n", word(mode))
}

/// The pairs in words. The states are listed only now, since that may take far longer than the verdict.
fn equal(
    root: Root<'_>,
    models: &[Loaded; 2],
    asked: &Asked,
    mode: Mode,
    by: &str,
) -> Result<String, Stopped> {
    let codes = asked.codes(models)?;
    let lines = progress::timed("listing", true, || list(root, models, &codes, asked)).0?;
    let kind = if asked.reachable { " of reachable states" } else { "" };
    let count = counted(lines.len() as u64, "pair");
    let head = format!("{} equal{by}, {count}{kind} in the largest bisimulation\n", word(mode));
    Ok(head + &lines.concat())
}

fn list(
    root: Root<'_>,
    models: &[Loaded; 2],
    codes: &[Vec<u64>; 2],
    asked: &Asked,
) -> Result<Vec<String>, Failure> {
    let spaces = [Space::of(&models[0].model), Space::of(&models[1].model)];
    let line = |(left, right): (u64, u64)| {
        let one = spaces[0].words(left, &models[0].names);
        let other = spaces[1].words(right, &models[1].names);
        format!("{one}  ~  {other}\n")
    };
    Ok(held(root, codes, asked)?.into_iter().map(line).collect())
}

/// The pairs of codes that the largest bisimulation holds.
fn held(root: Root<'_>, codes: &[Vec<u64>; 2], asked: &Asked) -> Result<Vec<(u64, u64)>, Failure> {
    let mut pairs = Vec::new();
    for (left, right) in codes[0].iter().flat_map(|left| codes[1].iter().map(move |right| (*left, *right))) {
        if proved::look_up(root, 0, [left, 0, right, 0])? {
            pairs.push((left, right));
        }
        if pairs.len() as u64 > MOST_LINES {
            return fail(format!(
                "more than {} are in the largest bisimulation, too many to list with any --most. {}.",
                counted(MOST_LINES, "pair"),
                asked.or_reachable(SMALLER)
            ));
        }
    }
    Ok(pairs)
}
