//! The program `oracle`; every command is a thin call into the library.

use std::io::{self, BufWriter, Write};
use std::process::ExitCode;
use std::{env, fs};

use oracle::answer::{compare_models, decide};
use oracle::bisim::Mode;
use oracle::model::Model;
use oracle::random::Random;
use oracle::stream::{Cases, Stream};
use oracle::vectors::Rerun;
use oracle::{compare, generate, largest, reader, requests, steps, vectors};

const USAGE: &str = "usage:
  oracle compare LEFT RIGHT LIMIT L
  oracle list LEFT RIGHT LIMIT NODES
  oracle verdict LEFT RIGHT MODE LIMIT
  oracle steps MODEL
  oracle pairs LEFT RIGHT MODE
  oracle read MODEL
  oracle vectors FILE
  oracle requests FILE
  oracle generate SEED COUNT
  oracle stream texts|comparisons|reordered|shown|sequences|tables SEED FIRST COUNT
  oracle stream vectors|requests FILE SEED

compare and list answer with both verdicts. list evaluates the joined list with room for so many nodes, also for more
than a table holds. In verdict and pairs MODE is 0 (strong) or 1 (weak).
stream writes cases with their expected answers as records for tests/c/runner.c.";

const TOO_LARGE: &str = "too large to enumerate";

/// Whether the command found everything in order, or why it could not be carried out.
type Done = Result<bool, String>;

fn main() -> ExitCode {
    let arguments: Vec<String> = env::args().skip(1).collect();
    let words: Vec<&str> = arguments.iter().map(String::as_str).collect();
    match run(&words) {
        Ok(true) => ExitCode::SUCCESS,
        Ok(false) => ExitCode::FAILURE,
        Err(reason) => {
            eprintln!("{reason}");
            ExitCode::from(2)
        }
    }
}

fn run(words: &[&str]) -> Done {
    match *words {
        ["compare", left, right, limit, length] => {
            let length = number(length)?;
            println!("{}", compare(&bytes(left)?, &bytes(right)?, number(limit)?, (length, length, length)));
            Ok(true)
        }
        ["list", left, right, limit, room] => {
            let checked = compare_models(&model(left)?, &model(right)?, number(limit)?, number(room)?);
            println!("{}", checked.answer);
            Ok(true)
        }
        ["verdict", left, right, mode, limit] => {
            let mode = mode_number(mode)?;
            let outcome = decide(&model(left)?, &model(right)?, mode, number(limit)?);
            println!("{}", outcome.ok_or(TOO_LARGE)?);
            Ok(true)
        }
        ["steps", path] => print_steps(path),
        ["pairs", left, right, mode] => print_pairs(left, right, mode),
        ["read", path] => read(path),
        ["vectors", path] => check(path, vectors::rerun),
        ["requests", path] => check(path, requests::rerun),
        ["generate", seed, count] => print_generated(seed, count),
        ["stream", ref rest @ ..] => run_stream(rest),
        _ => Err(USAGE.to_string()),
    }
}

fn run_stream(words: &[&str]) -> Done {
    written(match *words {
        ["vectors", path, seed] => stream().vectors(&ascii(path)?, number(seed)?),
        ["requests", path, seed] => stream().requests(&ascii(path)?, number(seed)?),
        [part, seed, first, count] => {
            let cases = Cases { seed: number(seed)?, first: number(first)?, count: number(count)? };
            match part {
                "texts" => stream().texts(cases),
                "comparisons" => stream().comparisons(cases),
                "reordered" => stream().reordered(cases),
                "shown" => stream().shown(cases),
                "sequences" => stream().sequences(cases),
                "tables" => stream().tables(cases),
                _ => return Err(USAGE.to_string()),
            }
        }
        _ => return Err(USAGE.to_string()),
    })
}

fn print_steps(path: &str) -> Done {
    for step in steps(&model(path)?).ok_or(TOO_LARGE)? {
        println!("{} {} {}", step.from, step.action, step.to);
    }
    Ok(true)
}

fn print_pairs(left: &str, right: &str, mode: &str) -> Done {
    let pairs = largest(&model(left)?, &model(right)?, mode_number(mode)?);
    for (x, y) in pairs.ok_or(TOO_LARGE)? {
        println!("{x} {y}");
    }
    Ok(true)
}

/// Prints generated comparisons as lines of vectors.
fn print_generated(seed: &str, count: &str) -> Done {
    let mut random = Random::new(number(seed)?);
    for index in 0..number(count)? {
        let case = generate::case(&mut random);
        let name = format!("gen {seed} {index}");
        println!("{}", case.line(&name, case.run().answer));
    }
    Ok(true)
}

fn stream() -> Stream<impl Write> {
    Stream(BufWriter::with_capacity(1 << 16, io::stdout().lock()))
}

fn written(result: io::Result<()>) -> Done {
    result.map(|()| true).map_err(|error| error.to_string())
}

fn bytes(path: &str) -> Result<Vec<u8>, String> {
    fs::read(path).map_err(|error| format!("{path}: {error}"))
}

fn ascii(path: &str) -> Result<String, String> {
    String::from_utf8(bytes(path)?).map_err(|_| "stored lines are ASCII".to_string())
}

fn number<N: std::str::FromStr>(word: &str) -> Result<N, String> {
    word.parse().map_err(|_| format!("not a number in range: {word}"))
}

fn mode_number(word: &str) -> Result<Mode, String> {
    match number(word)? {
        0 => Ok(Mode::Strong),
        1 => Ok(Mode::Weak),
        _ => Err("mode is 0 (strong) or 1 (weak)".to_string()),
    }
}

fn model(path: &str) -> Result<Model, String> {
    let refused = |r: reader::Refusal| format!("{path}: refused {} in line {}", r.number, r.line);
    reader::read(&bytes(path)?).map_err(refused)
}

/// Prints lines, bits, leaf uses and states of an accepted model, or the refusal's number and line.
fn read(path: &str) -> Done {
    match reader::read(&bytes(path)?) {
        Ok(model) => {
            let last = model.last();
            let (lines, bits, uses) = (model.lines.len(), last.bits, last.uses);
            println!("accepted, {lines} lines, {bits} bits, {uses} leaf uses, {} states", last.states);
        }
        Err(refusal) => println!("refused {} {}", refusal.number, refusal.line),
    }
    Ok(true)
}

/// Works out the answer of every line anew. Prints every line whose answer differs, then the totals.
fn check(path: &str, rerun: impl Fn(&str) -> Option<Rerun>) -> Done {
    let file = ascii(path)?;
    let (mut agree, mut differ, mut explicit) = (0, 0, 0);
    for line in file.lines().filter(|line| vectors::is_vector(line)) {
        let line = rerun(line).ok_or_else(|| format!("malformed line: {line}"))?;
        explicit += u64::from(line.explicit);
        if line.got == line.expected {
            agree += 1;
        } else {
            differ += 1;
            println!("{}: expected {}, got {}", line.name, line.expected, line.got);
        }
    }
    println!("{explicit} verdicts and refusals 9 also by explicit pairs");
    println!("{agree} agree, {differ} differ");
    Ok(differ == 0)
}
