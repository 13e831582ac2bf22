//! Random, truncated and changed files give a sentence and an exit status, and never a panic.

mod common;

use common::{model, rounds, top, Folder, Random};
use std::fs;

const FILES: &[&str] = &[
    "models/shuttle1.hex",
    "models/shuttle1.names",
    "models/lotos_data_term_gate.hex",
    "models/lotos_data_term_gate.names",
    "examples/shuttle_faulty.model",
    "examples/shuttle_from_aut.model",
    "examples/journal_faulty.aut",
    "examples/service.aut",
    "examples/parking.model",
    "examples/stop.model",
];

const RUNS: &[&[&str]] = &[
    &["compare", "file.hex", "file.hex", "--nodes", "4096"],
    &["compare", "file.hex", "good.hex", "--nodes", "4096", "--json"],
    &["pairs", "good.hex", "file.hex", "--nodes", "4096"],
    &["steps", "file.hex", "--most", "200"],
    &["show", "file.hex"],
    &["show", "file.hex", "--dot", "--most", "200"],
    &["check", "file.hex"],
    &["to-aut", "file.hex", "--most", "200"],
    &["build", "--text", "file.hex"],
    &["build", "file.model"],
    &["from-aut", "file.aut"],
    &["build", "uses.model", "--into", "."],
    &["from-aut", "service.aut", "--names", "file.names"],
];

/// A name table with a record of what its text was built from.
const RECORD: &str = "\
text e3b0c44298fc1c149afbf4c8996fb92427ae41e4649b934ca495991b7852b855
source model file.model e3b0c44298fc1c149afbf4c8996fb92427ae41e4649b934ca495991b7852b855
source aut \"../x/./file.aut\" e3b0c44298fc1c149afbf4c8996fb92427ae41e4649b934ca495991b7852b855
source aut . e3b0c44298fc1c149afbf4c8996fb92427ae41e4649b934ca495991b7852b855
channel 1 a
";

/// Random bytes, a beginning of a file, or a file with some bytes changed, taken out or put in.
fn hostile(random: &mut Random, file: &[u8]) -> Vec<u8> {
    let mut bytes = file.to_vec();
    match random.below(4) {
        0 => return (0..random.below(300)).map(|_| random.next() as u8).collect(),
        1 => bytes.truncate(random.below(file.len() + 1)),
        _ => {
            for _ in 0..1 + random.below(4) {
                let at = random.below(bytes.len().max(1)).min(bytes.len());
                change(random, &mut bytes, at);
            }
        }
    }
    bytes
}

fn change(random: &mut Random, bytes: &mut Vec<u8>, at: usize) {
    let any = random.next() as u8;
    let byte = *random
        .pick(&[b'0', b'1', b'F', b'\n', b' ', b'"', b'(', b',', b'-', b'=', b'#', b'a', 0, 0xC3, any]);
    match random.below(3) {
        0 => bytes.insert(at, byte),
        1 if at < bytes.len() => drop(bytes.remove(at)),
        _ if at < bytes.len() => bytes[at] = byte,
        _ => bytes.push(byte),
    }
}

fn all_runs(folder: &Folder) {
    for words in RUNS {
        let ran = folder.run(words);
        if ran.status >= 2 {
            let said = format!("{}{}", ran.out, ran.err);
            assert!(said.trim_end().ends_with(['.', '}']), "{words:?}: no sentence: {said}");
        }
        for file in
            ["file.hex", "file.names"].iter().filter(|_| words[0] == "build" || words[0] == "from-aut")
        {
            assert!(folder.0.join(file).exists());
        }
    }
}

#[test]
fn changed_files() {
    let mut random = Random(424_242);
    let files: Vec<Vec<u8>> = FILES.iter().map(|f| fs::read(top().join(f)).unwrap()).collect();
    for round in 0..rounds(45) {
        let folder = Folder::new();
        let pick = |random: &mut Random, ending: &str| {
            let fitting: Vec<usize> = (0..FILES.len()).filter(|i| FILES[*i].ends_with(ending)).collect();
            let index = if random.below(5) == 0 { random.below(FILES.len()) } else { *random.pick(&fitting) };
            hostile(random, &files[index])
        };
        folder.write("good.hex", "000102000201\n");
        folder.write("service.aut", &files[7]);
        folder.write("uses.model", "leaf x from \"file.aut\"\ny = compose x x\n");
        for ending in ["hex", "names", "model", "aut"] {
            folder.write(&format!("file.{ending}"), pick(&mut random, &format!(".{ending}")));
        }
        if round % 2 == 0 {
            let text = model(&mut random, 6).text.into_bytes();
            folder.write("file.hex", if round % 4 == 0 { hostile(&mut random, &text) } else { text });
        }
        if round % 3 == 0 {
            folder.write("file.names", hostile(&mut random, RECORD.as_bytes()));
        }
        all_runs(&folder);
    }
}

#[test]
fn large_and_odd_files() {
    let folder = Folder::new();
    folder.write("good.hex", "000102000201\n");
    folder.write("service.aut", "des (0, 0, 1)\n");
    folder.write("uses.model", "leaf x from \"file.aut\"\n");
    let many_states = format!("leaf a\n{}", "  x -- tau --> y\n".repeat(100));
    let wide = format!("leaf a\n  states {}\n", (0..40_000).map(|n| format!("s{n} ")).collect::<String>());
    let channels = format!(
        "channels {}\nleaf a\n  states b\n",
        (0..40_000).map(|n| format!("c{n} ")).collect::<String>()
    );
    let zeros = vec![0; 1 << 21];
    let lines = "000101\n".repeat(70);
    let aut = "des (0, 0, 4000000000)\n";
    let large_aut = format!("des (0, 60000, 64)\n{}", "(0, i, 1)\n".repeat(60_000));
    let texts: [&[u8]; 9] = [
        b"",
        b"\n",
        &zeros,
        lines.as_bytes(),
        many_states.as_bytes(),
        wide.as_bytes(),
        channels.as_bytes(),
        aut.as_bytes(),
        large_aut.as_bytes(),
    ];
    for text in texts {
        for ending in ["hex", "names", "model", "aut"] {
            folder.write(&format!("file.{ending}"), text);
        }
        all_runs(&folder);
    }
}
