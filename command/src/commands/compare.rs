//! `compare`: the strong and the weak verdict of two models, from one call.

use crate::arguments::{Form, Given};
use crate::channels::{self, Basis};
use crate::files;
use crate::json;
use crate::load;
use crate::outcome::{counted, fail, Answer, Failure, Outcome, DIFFERENT, EQUAL, REFUSED};
use crate::progress;
use crate::proved::{self, ENTRIES, LIMIT};
use crate::refusals::{self, Call, UNDECIDED};
use crate::stages;
use crate::words::word;
use seipolku::{Comparison, Mode, Nodes, Refusal, Side, Verdict};
use std::path::Path;
use std::time::Duration;

pub const FORM: Form = Form {
    command: "compare",
    values: &["--mode", "--limit", "--nodes"],
    flags: &["--by-number", "--quiet", "--json"],
};

/// A comparison as it was called and answered.
struct Compared<'a> {
    call: Call<'a>,
    basis: Option<Basis>,
    answer: Result<Comparison<'a>, Refused>,
    time: Duration,
}

/// A refusal of the whole comparison, with its explanation.
struct Refused {
    refusal: Refusal,
    words: String,
}

pub fn run(given: &Given) -> Answer {
    let files = given.two_files()?;
    let modes = modes(given, &[Mode::Strong, Mode::Weak])?;
    let limit = given.number("--limit")?.unwrap_or(LIMIT);
    let entries = given.number("--nodes")?.unwrap_or(ENTRIES);
    let (left, right) = (files::read(files[0])?, files::read(files[1])?);
    let basis = basis(files, [&left, &right], given.flag("--by-number"))?;
    let mut table = proved::table(entries)?;
    let quiet = given.flag("--quiet");
    let (answer, time) = progress::timed("comparing", !quiet, || table.get()?.compare(&left, &right, limit));
    let call = Call { files, texts: [&left, &right], entries, limit, modes: &modes };
    let answer = match answer {
        Ok(both) => Ok(both),
        Err(refusal) => Err(Refused { refusal, words: refusals::of_comparison(&refusal, &call, &mut table) }),
    };
    let compared = Compared { call, basis, answer, time };
    let text = match (given.flag("--json"), quiet) {
        (true, _) => compared.json(),
        (false, true) => String::new(),
        (false, false) => compared.words(),
    };
    let mut notes = Vec::new();
    if quiet || !given.flag("--json") {
        notes.extend_from_slice(compared.notes());
    }
    if quiet {
        notes.extend(compared.explanation());
    }
    Ok(Outcome { text, notes, status: compared.status() })
}

/// What channels are taken by; nothing where the library refuses a text, so that there is no comparison.
fn basis(files: [&Path; 2], texts: [&[u8]; 2], by_number: bool) -> Result<Option<Basis>, Failure> {
    if texts.iter().any(|text| proved::refusal(text).is_some()) {
        return Ok(None);
    }
    let models = load::both_of_accepted(files, texts.map(<[u8]>::to_vec))?;
    Ok(Some(channels::basis(&models, by_number)?))
}

/// The verdicts that --mode names; `both` only where that is the default.
pub fn modes(given: &Given, default: &[Mode]) -> Result<Vec<Mode>, Failure> {
    let Some(value) = given.value("--mode") else { return Ok(default.to_vec()) };
    match value.to_str() {
        Some("strong") => Ok(vec![Mode::Strong]),
        Some("weak") => Ok(vec![Mode::Weak]),
        Some("both") if default.len() > 1 => Ok(default.to_vec()),
        _ => {
            let allowed = if default.len() > 1 { "strong, weak or both" } else { "strong or weak" };
            fail(format!("--mode takes {allowed}, not '{}'.", value.to_string_lossy()))
        }
    }
}

fn status(verdict: Verdict<'_>) -> u8 {
    match verdict {
        Verdict::Equal { .. } => EQUAL,
        Verdict::Different { .. } => DIFFERENT,
        Verdict::Undecided => REFUSED,
    }
}

fn verdict_word(verdict: Verdict<'_>) -> &'static str {
    match verdict {
        Verdict::Equal { .. } => "equal",
        Verdict::Different { .. } => "different",
        Verdict::Undecided => "refused",
    }
}

fn json_nodes(nodes: Nodes) -> String {
    json::object(&[
        ("relations", nodes.relations.to_string()),
        ("answers", nodes.answers.to_string()),
        ("whole", nodes.whole.to_string()),
    ])
}

fn line(name: &str, verdict: &str, detail: &str) -> String {
    format!("{name:<6}  {verdict:<9}  {detail}\n")
}

impl Compared<'_> {
    /// The worst of the verdicts that are shown.
    fn status(&self) -> u8 {
        match &self.answer {
            Ok(both) => self.call.modes.iter().map(|mode| status(both.verdict(*mode))).max().unwrap_or(EQUAL),
            Err(_) => REFUSED,
        }
    }

    fn notes(&self) -> &[String] {
        self.basis.as_ref().map_or(&[], |basis| &basis.notes)
    }

    /// Where the nodes went: of an answer, and of the refusal that is due where they don't fit.
    fn nodes(&self) -> Option<Nodes> {
        match &self.answer {
            Ok(both) => Some(both.nodes),
            Err(refused) => refused.refusal.nodes(),
        }
    }

    /// A line for each verdict that is shown, then one for what both needed; or one for the refusal of both. Below stands where the nodes went.
    fn words(&self) -> String {
        let seconds = self.time.as_secs_f64();
        let mut text = match &self.answer {
            Err(Refused { refusal, .. }) => {
                line("both", "refused", &format!("{}, {seconds:.3} s", refusals::short(refusal)))
            }
            Ok(both) => {
                let lines: String = self
                    .call
                    .modes
                    .iter()
                    .map(|mode| self.verdict_line(*mode, both.verdict(*mode)))
                    .collect();
                format!("{lines}{:<6}  {}, {seconds:.3} s\n", "both", counted(both.nodes.whole, "node"))
            }
        };
        text += &self.stages();
        if let Some(explanation) = self.explanation() {
            text += &format!("\n{explanation}");
        }
        text
    }

    /// A line for each stage where it is known how many nodes went there.
    fn stages(&self) -> String {
        match (self.nodes(), self.answer.is_ok()) {
            (Some(nodes), true) => stages::table(nodes),
            (Some(nodes), false) => stages::full_table(nodes),
            (None, _) => String::new(),
        }
    }

    fn verdict_line(&self, mode: Mode, verdict: Verdict<'_>) -> String {
        let by = self.basis.as_ref().map_or("", Basis::words);
        let detail = match verdict.rounds() {
            Some(rounds) => format!("{}{by}", counted(rounds, "round")),
            None => format!("{UNDECIDED}, the limit is reached"),
        };
        line(word(mode), verdict_word(verdict), &detail)
    }

    /// The refusal in words, or what 9 means for the verdicts that it stands for.
    fn explanation(&self) -> Option<String> {
        match &self.answer {
            Err(refused) => Some(refused.words.clone()),
            Ok(both) => {
                let undecided = |mode: &&Mode| both.verdict(**mode).rounds().is_none();
                let modes: Vec<Mode> = self.call.modes.iter().filter(undecided).copied().collect();
                (!modes.is_empty()).then(|| refusals::of_limit(&modes, both, self.call.limit))
            }
        }
    }

    fn json(&self) -> String {
        let file = |path: &Path| json::string(&path.to_string_lossy());
        let null = || "null".to_string();
        let answers: Vec<String> = self.call.modes.iter().map(|mode| self.json_answer(*mode)).collect();
        let notes: Vec<String> = self.notes().iter().map(|note| json::string(note)).collect();
        let whole = json::object(&[
            ("left", file(self.call.files[0])),
            ("right", file(self.call.files[1])),
            ("entries", self.call.entries.to_string()),
            ("limit", self.call.limit.to_string()),
            ("channels", self.basis.as_ref().map_or_else(null, |basis| json::string(basis.json()))),
            ("answers", json::array(&answers)),
            ("nodes", self.answer.as_ref().map_or_else(|_| null(), |both| both.nodes.whole.to_string())),
            ("nodes_up_to", self.nodes().map_or_else(null, json_nodes)),
            ("seconds", format!("{:.6}", self.time.as_secs_f64())),
            ("notes", json::array(&notes)),
            ("status", self.status().to_string()),
        ]);
        whole + "\n"
    }

    fn json_answer(&self, mode: Mode) -> String {
        let refused = |number: u64, side: Side, line: u64, words: &str| {
            let line = if side == Side::Neither { "null".to_string() } else { line.to_string() };
            vec![
                ("verdict", json::string("refused")),
                ("number", number.to_string()),
                ("side", json::string(refusals::side(side))),
                ("line", line),
                ("words", json::string(words)),
            ]
        };
        let found = match &self.answer {
            Err(Refused { refusal, words }) => {
                refused(refusal.fault.number(), refusal.side, refusal.line, words)
            }
            Ok(both) => match both.verdict(mode).rounds() {
                Some(rounds) => vec![
                    ("verdict", json::string(verdict_word(both.verdict(mode)))),
                    ("rounds", rounds.to_string()),
                ],
                None => {
                    let words = refusals::of_limit(&[mode], both, self.call.limit);
                    refused(UNDECIDED, Side::Neither, 0, &words)
                }
            },
        };
        json::object(&[vec![("mode", json::string(word(mode)))], found].concat())
    }
}
