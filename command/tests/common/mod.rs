//! What the tests share: running the command, folders for files, generated models, pages with commands.
#![allow(dead_code)]

pub mod page;

use seipolku::frames::{EXIT, MOST_CHANNEL};
use std::fs;
use std::path::{Path, PathBuf};
use std::process::{Command, Output};
use std::sync::atomic::{AtomicUsize, Ordering};

/// Standard output, standard error and exit status of a run.
pub struct Ran {
    pub out: String,
    pub err: String,
    pub status: i32,
}

/// The repository's top folder.
pub fn top() -> PathBuf {
    Path::new(env!("CARGO_MANIFEST_DIR")).join("..")
}

/// Runs the command in a folder. A panic or a signal ends the test.
pub fn run_in(folder: &Path, words: &[&str]) -> Ran {
    let output = Command::new(env!("CARGO_BIN_EXE_seipolku")).args(words).current_dir(folder).output();
    let Output { stdout, stderr, status } = output.expect("the command starts");
    let ran = Ran {
        out: String::from_utf8_lossy(&stdout).into_owned(),
        err: String::from_utf8_lossy(&stderr).into_owned(),
        status: status.code().unwrap_or(-1),
    };
    assert!((0..=3).contains(&ran.status), "{words:?}: status {}: {}", ran.status, ran.err);
    ran
}

pub fn run(words: &[&str]) -> Ran {
    run_in(&top(), words)
}

/// A folder of its own under the system's one for temporary files, removed at the end.
pub struct Folder(pub PathBuf);

impl Folder {
    pub fn new() -> Folder {
        static COUNT: AtomicUsize = AtomicUsize::new(0);
        let number = COUNT.fetch_add(1, Ordering::Relaxed);
        let path = std::env::temp_dir().join(format!("seipolku-test-{}-{number}", std::process::id()));
        fs::create_dir_all(&path).expect("a folder");
        Folder(path)
    }

    pub fn write(&self, name: &str, bytes: impl AsRef<[u8]>) {
        fs::write(self.0.join(name), bytes).expect("a file");
    }

    pub fn read(&self, name: &str) -> String {
        fs::read_to_string(self.0.join(name)).expect("a file of text")
    }

    pub fn run(&self, words: &[&str]) -> Ran {
        run_in(&self.0, words)
    }

    /// A run that must be carried out.
    pub fn done(&self, words: &[&str]) -> String {
        let ran = self.run(words);
        assert_eq!(ran.status, 0, "{words:?}: {}{}", ran.out, ran.err);
        ran.out
    }
}

impl Drop for Folder {
    fn drop(&mut self) {
        let _ = fs::remove_dir_all(&self.0);
    }
}

/// A small generator of numbers (xorshift), the same for a seed on every machine.
pub struct Random(pub u64);

impl Random {
    pub fn next(&mut self) -> u64 {
        self.0 ^= self.0 << 13;
        self.0 ^= self.0 >> 7;
        self.0 ^= self.0 << 17;
        self.0.wrapping_mul(0x2545_F491_4F6C_DD1D) >> 16
    }

    pub fn below(&mut self, end: usize) -> usize {
        (self.next() % end as u64) as usize
    }

    pub fn pick<'a, T>(&mut self, all: &'a [T]) -> &'a T {
        &all[self.below(all.len())]
    }
}

/// How many rounds a test goes: SEIPOLKU_ROUNDS times the usual number.
pub fn rounds(usual: usize) -> usize {
    let times = std::env::var("SEIPOLKU_ROUNDS").ok().and_then(|t| t.parse().ok());
    usual * times.unwrap_or(1usize)
}

/// A generated model: the text, and the bits of its last line.
pub struct Generated {
    pub text: String,
    pub bits: u32,
}

/// A model of at most so many bits in every line, with all eight kinds of lines.
pub fn model(random: &mut Random, budget: u32) -> Generated {
    let mut lines: Vec<(Vec<u8>, u32, usize)> = Vec::new();
    for number in 0..1 + random.below(9) {
        let (body, bits, uses) = line(random, &lines, budget);
        lines.push(([vec![number as u8], body].concat(), bits, uses));
    }
    let text = lines.iter().map(|(bytes, _, _)| digits(bytes) + "\n").collect();
    Generated { text, bits: lines.last().map_or(0, |l| l.1) }
}

pub fn digits(bytes: &[u8]) -> String {
    bytes.iter().map(|b| format!("{b:02X}")).collect()
}

fn line(random: &mut Random, earlier: &[(Vec<u8>, u32, usize)], budget: u32) -> (Vec<u8>, u32, usize) {
    if earlier.is_empty() || random.below(4) == 0 {
        return leaf(random, budget);
    }
    let (i, j) = (random.below(earlier.len()), random.below(earlier.len()));
    let (bits, uses) = (earlier[i].1 + earlier[j].1, earlier[i].2 + earlier[j].2);
    let list: Vec<u8> = (0..random.below(4)).map(|_| channel(random)).collect();
    let (one, other) = (i as u8, j as u8);
    match random.below(7) {
        0 if bits <= budget && uses <= 64 => (vec![2, one, other], bits, uses),
        1 if bits <= budget && uses <= 64 => ([vec![6, one, other], list].concat(), bits, uses),
        5 if bits < budget && uses <= 64 => (vec![7, one, other], bits + 1, uses),
        6 if bits + 1 < budget && uses <= 64 => (vec![8, one, other], bits + 2, uses),
        2 => (vec![4, one, channel(random), channel(random)], earlier[i].1, earlier[i].2),
        3 => ([vec![5, one], list].concat(), earlier[i].1, earlier[i].2),
        _ => ([vec![3, one], list].concat(), earlier[i].1, earlier[i].2),
    }
}

fn leaf(random: &mut Random, budget: u32) -> (Vec<u8>, u32, usize) {
    let most = 1 << budget.min(6);
    let wide = random.below(8) == 0;
    let states = 1 + random.below(if wide { most } else { most.min(4) });
    let mut body = vec![1, states as u8];
    for _ in 0..random.below(2 * states + 2).min(84) {
        let direction = random.below(2) as u8;
        let action = match random.below(8) {
            0 | 1 => 0,
            2 => EXIT,
            _ => 2 * channel(random) + direction,
        };
        body.extend([random.below(states) as u8, action, random.below(states) as u8]);
    }
    (body, usize::BITS - (states - 1).leading_zeros(), 1)
}

fn channel(random: &mut Random) -> u8 {
    let any = 1 + random.below(usize::from(MOST_CHANNEL)) as u8;
    *random.pick(&[1, 2, 3, 1, 2, 3, any, MOST_CHANNEL])
}
