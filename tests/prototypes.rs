//! include/cascade.h against crates/capi/src, by text: the same calls, their arguments by name, type
//! and order, and the fields of each answer by name and order.

use std::collections::BTreeMap;
use std::fs;

/// A call: what it answers, then its arguments, as C has them.
type Calls = BTreeMap<String, Vec<String>>;
/// The fields of each struct.
type Structs = BTreeMap<String, Vec<String>>;

fn read(path: &str) -> String {
    fs::read_to_string(path).unwrap_or_else(|why| panic!("{path}: {why}"))
}

/// The words of a text, of which a word is letters, digits and `_`, or one other character.
fn words(text: &str) -> Vec<String> {
    let mut words: Vec<String> = Vec::new();
    let mut joins = false;
    for c in text.chars() {
        let letter = c.is_alphanumeric() || c == '_';
        if letter && joins {
            words.last_mut().expect("a word").push(c);
        } else if !c.is_whitespace() {
            words.push(c.to_string());
        }
        joins = letter;
    }
    words
}

/// The text without what stands from one mark to the other.
fn without(text: &str, from: &str, to: &str) -> String {
    let mut left = String::new();
    let mut rest = text;
    while let Some(at) = rest.find(from) {
        left += &rest[..at];
        let end = rest[at..].find(to).expect("a closing mark");
        rest = &rest[at + end + to.len()..];
    }
    left + rest
}

// ---- the header

fn header() -> (Calls, Structs) {
    let text = without(&read("include/cascade.h"), "/*", "*/");
    let text: Vec<&str> = text.lines().filter(|line| !line.starts_with('#')).collect();
    let (mut calls, mut structs) = (Calls::new(), Structs::new());
    for part in text.join("\n").split(';').map(words) {
        let Some(at) = part.iter().position(|word| word == "struct") else { continue };
        let part = &part[at..];
        if part[2] == "{" {
            // a struct's first line of fields; all fields are uint64_t
            assert_eq!(part[3], "uint64_t", "{part:?}");
            let fields = part[4..].iter().filter(|word| *word != ",").cloned().collect();
            structs.insert(part[1].clone(), fields);
        } else {
            let inside = part[4..part.len() - 1].split(|word| word == ",");
            let arguments = inside.map(|words| words.join(" "));
            calls.insert(part[2].clone(), std::iter::once(part[1].clone()).chain(arguments).collect());
        }
    }
    (calls, structs)
}

// ---- the crate

/// CascadeRunAnswer as cascade_run_answer.
fn c_name(name: &str) -> String {
    let mut c = String::new();
    for letter in name.chars() {
        if letter.is_uppercase() && !c.is_empty() {
            c.push('_');
        }
        c.extend(letter.to_lowercase());
    }
    c
}

/// An argument as C has it: a slice is a pointer and a length.
fn argument(words: &[String]) -> Vec<String> {
    let name = &words[0];
    let kind: Vec<&str> = words[2..].iter().map(String::as_str).filter(|word| !["'", "a"].contains(word)).collect();
    let element = |word: &str| match word {
        "u64" => "uint64_t".to_string(),
        "u8" => "uint8_t".to_string(),
        "i16" => "int16_t".to_string(),
        "i32" => "int32_t".to_string(),
        "Gate" => "struct cascade_gate".to_string(),
        "Header" => "struct cascade_header".to_string(),
        _ => panic!("{words:?}"),
    };
    match kind[..] {
        [whole] => vec![format!("{} {name}", element(whole))],
        ["&", "[", each, "]"] => vec![format!("const {} * {name}", element(each)), format!("size_t {name}_len")],
        ["&", "mut", "[", each, "]"] => vec![format!("{} * {name}", element(each)), format!("size_t {name}_len")],
        _ => panic!("{words:?}"),
    }
}

/// The calls and the structs of a source.
fn source(path: &str, calls: &mut Calls, structs: &mut Structs) {
    let text: Vec<String> = read(path).lines().map(|line| line.split("//").next().unwrap_or("").to_string()).collect();
    let text = words(&text.join("\n"));
    for (at, word) in text.iter().enumerate() {
        let from = |mark: &str| at + text[at..].iter().position(|word| word == mark).expect(mark);
        if word == "extern" {
            let (open, close) = (from("("), from(")"));
            assert_eq!(text[close + 1..close + 3], ["-", ">"], "{path}: {:?}", &text[at..close]);
            let parts = text[open + 1..close].split(|word| word == ",").filter(|part| !part.is_empty());
            let arguments = parts.flat_map(argument);
            let answer = c_name(&text[close + 3]);
            calls.insert(text[at + 5].clone(), std::iter::once(answer).chain(arguments).collect());
        } else if word == "struct" {
            let (open, close) = (from("{"), from("}"));
            let parts = text[open + 1..close].split(|word| word == ",").filter(|part| !part.is_empty());
            let fields = parts.map(|part| {
                assert_eq!(part.last().map(String::as_str), Some("u64"), "{path}: {part:?}");
                part[part.len() - 3].clone()
            });
            structs.insert(c_name(&text[at + 1]), fields.collect());
        }
    }
}

fn main() {
    let (calls, structs) = header();
    let (mut our_calls, mut our_structs) = (Calls::new(), Structs::new());
    for entry in fs::read_dir("crates/capi/src").expect("crates/capi/src") {
        let path = entry.expect("an entry").path();
        source(path.to_str().expect("a name"), &mut our_calls, &mut our_structs);
    }
    for record in ["gate", "header"] {
        source(&format!("crates/circuit/src/{record}.rt"), &mut Calls::new(), &mut our_structs);
        let fields = our_structs.remove(record).expect("a record of circuit");
        our_structs.insert(format!("cascade_{record}"), fields);
    }
    assert_eq!(calls, our_calls, "the calls of the header, and of the crate");
    assert_eq!(structs, our_structs, "the structs of the header, and of the crate");
    assert!(!calls.is_empty() && !structs.is_empty());
    println!("header: {} calls and {} structs have the names and the order of crates/capi/src", calls.len(), structs.len());
}
