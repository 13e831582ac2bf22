//! Writing JSON.

/// A string with its escapes.
pub fn string(text: &str) -> String {
    let mut json = String::from('"');
    for c in text.chars() {
        match c {
            '"' => json.push_str("\\\""),
            '\\' => json.push_str("\\\\"),
            '\n' => json.push_str("\\n"),
            c if (c as u32) < 0x20 || c == '\u{7f}' => json.push_str(&format!("\\u{:04x}", c as u32)),
            c => json.push(c),
        }
    }
    json + "\""
}

/// An object of names and written values.
pub fn object(members: &[(&str, String)]) -> String {
    let written: Vec<String> =
        members.iter().map(|(name, value)| format!("{}: {value}", string(name))).collect();
    format!("{{{}}}", written.join(", "))
}

pub fn array(values: &[String]) -> String {
    format!("[{}]", values.join(", "))
}

/// The object that stands for an answer where there is none.
pub fn error(sentence: &str, status: u8) -> String {
    let members = [
        ("error", string(sentence)),
        ("answers", array(&[])),
        ("notes", array(&[])),
        ("status", status.to_string()),
    ];
    object(&members) + "\n"
}
