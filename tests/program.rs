//! Runs the built program on two files, good, damaged and too long, whole and in pieces, and compares
//! every byte that it writes with the rules, its exit status and what it says; makes its reads fail;
//! and hands what it writes to CryptoMiniSat, where it is there, and compares the spelled inputs with
//! a simulation; the files with marks and without. The argument is the seed, where another than the fixed one is wanted. The script
//! ./tomiter has its own test, tests/scripts.

mod built;
#[allow(dead_code)]
mod files;
#[allow(dead_code)]
mod inputs;
#[allow(dead_code)]
mod random;
#[allow(dead_code)]
mod reference;
#[allow(dead_code)]
mod solver;

use random::Random;
use reference::{Clause, ClauseList, FileCascade, Header};
use std::collections::BTreeMap;
use std::io::Write;
use std::process::{Command, Output, Stdio};
use std::time::Duration;

const SEED: u64 = 20_240_601;
const MOST_BYTES: usize = 65_536;
const MOST_GATES: usize = 1_024;
const MOST_WORDS: u64 = 16_384;
/// Pairs that the solver gets.
const SOLVED: usize = 200;

// ---- the rules

/// The clause list as text.
fn dimacs(list: &ClauseList) -> Vec<u8> {
    let mut text = format!("p cnf {} {}\n", list.variables, list.clauses.len());
    for clause in &list.clauses {
        let literals = match clause {
            Clause::Or(literals) => literals,
            Clause::Xor(literals) => {
                text.push('x');
                literals
            }
        };
        let literals: Vec<String> = literals.iter().map(i64::to_string).collect();
        text += &literals.join(" ");
        text += " 0\n";
    }
    text.into_bytes()
}

/// The file at the start of a text: what is wrong with it up to its `end`, then 10 for more gates than a file may
/// have.
fn file(text: &[u8], file: u64) -> Result<FileCascade, (u64, u64, u64)> {
    let read = reference::read_text(text).map_err(|why| (why.number, file, why.place))?;
    if read.gates.len() > MOST_GATES {
        return Err((10, file, 0));
    }
    Ok(read)
}

/// The header and the clause list of an input's two files; else the number, the file and the place.
fn list(input: &[u8]) -> Result<(Header, ClauseList), (u64, u64, u64)> {
    if input.len() > MOST_BYTES {
        return Err((10, 0, 0));
    }
    let first = file(input, 1)?;
    let rest = &input[first.taken..];
    let second = file(rest, 2)?;
    if second.taken < rest.len() {
        let lines = rest[..second.taken].iter().filter(|byte| **byte == b'\n').count();
        return Err((1, 2, lines as u64));
    }
    if first.header.lines != second.header.lines {
        return Err((8, 0, 0));
    }
    if first.header != second.header {
        return Err((15, 0, 0));
    }
    let list = reference::pair_list(first.header, &first.gates, &second.gates);
    if reference::sizes_of(&list).words > MOST_WORDS {
        return Err((10, 0, 0));
    }
    Ok((first.header, list))
}

// ---- the program

/// Runs a program on an input that comes in pieces, with a pause before each but the first.
fn run_in_pieces(program: &[&str], pieces: Vec<Vec<u8>>, pause: Duration) -> Output {
    let mut child = Command::new(program[0])
        .args(&program[1..])
        .stdin(Stdio::piped())
        .stdout(Stdio::piped())
        .stderr(Stdio::piped())
        .spawn()
        .expect("the program is there");
    let mut pipe = child.stdin.take().expect("a pipe");
    let writer = std::thread::spawn(move || {
        for (index, piece) in pieces.iter().enumerate() {
            if index > 0 {
                std::thread::sleep(pause);
            }
            // The program stops reading after 65,537 bytes.
            let _ = pipe.write_all(piece);
        }
    });
    let output = child.wait_with_output().expect("the program ends");
    writer.join().expect("the writer ends");
    output
}

/// What the program writes. It ends with 0 and says nothing.
fn run(program: &str, input: &[u8]) -> Vec<u8> {
    let output = run_in_pieces(&[program], vec![input.to_vec()], Duration::ZERO);
    assert!(output.status.code() == Some(0) && output.stderr.is_empty(), "{output:?}");
    output.stdout
}

/// The right text for an input, and its outcome.
fn answer(input: &[u8]) -> (Vec<u8>, String) {
    match list(input) {
        Ok((header, list)) => {
            let outcome = match (header.marked(), list.clauses.last()) {
                (false, _) => "served",
                (true, Some(Clause::Or(literals))) if literals.is_empty() => "served, no line counts",
                (true, _) => "served, marked",
            };
            (dimacs(&list), outcome.to_string())
        }
        Err((number, file, place)) => (
            format!("refused\t{number}\t{file}\t{place}\n").into_bytes(),
            format!("refused {number}, file {file}"),
        ),
    }
}

/// How often each outcome occurred.
struct Seen {
    program: String,
    cases: u64,
    outcomes: BTreeMap<String, u64>,
}

impl Seen {
    fn check(&mut self, input: &[u8]) {
        let (text, outcome) = answer(input);
        let written = run(&self.program, input);
        if written != text {
            println!("input: {:?}", String::from_utf8_lossy(input));
            println!("written: {:?}", String::from_utf8_lossy(&written));
            println!("right: {:?}", String::from_utf8_lossy(&text));
            std::process::exit(1);
        }
        self.cases += 1;
        *self.outcomes.entry(outcome).or_default() += 1;
    }
}

// ---- inputs

/// Two cascades, on as many lines but for one pair in eight, and with the same marks but for some.
fn pair(random: &mut Random) -> Vec<u8> {
    let lines = random.pick(&[1, 2, 3, 9, 10, 11, 63, 64]);
    let other = if random.one_in(8) { 1 + random.below(64) } else { lines };
    let marks = inputs::good_marks(random, lines);
    let others = if other == lines && !random.one_in(8) { marks } else { inputs::good_marks(random, other) };
    let mut input = Vec::new();
    for (lines, marks) in [(lines, marks), (other, others)] {
        let gates = random.index(6);
        input.extend(inputs::good_cascade(random, lines, gates).with_marks(marks).text());
    }
    input
}

/// Two cascades with these marks: 49 gates with 63 controls on 64 lines, then gates without and with one
/// control; and no gate. Without marks 16,087 words, and 4 and 5 for each of the last gates. A constant takes
/// 3 words more, and a junk line that is no target 4 less.
fn near_limit(marks: &str, without: usize, with_one: usize) -> Vec<u8> {
    let head = format!("lines\t64\n{marks}");
    let mut text = head.clone().into_bytes();
    for _ in 0..49 {
        text.extend(b"g\t0");
        for line in 1..64 {
            text.extend(format!("\t-{line}").bytes());
        }
        text.push(b'\n');
    }
    text.extend(b"g\t0\n".repeat(without));
    text.extend(b"g\t0\t+63\n".repeat(with_one));
    text.extend(format!("end\n{head}end\n").bytes());
    text
}

/// A file of so many gates on two lines, each the NOT of line 0, and then the text after the last one.
fn gates(number: usize, last: &[u8]) -> Vec<u8> {
    [b"lines\t2\n", &b"g\t0\n".repeat(number)[..], last].concat()
}

/// Files of as many gates as they may have, and of more, beside all that may be wrong besides.
fn check_gates(seen: &mut Seen) {
    const END: &[u8] = b"end\n";
    let (most, over) = (gates(MOST_GATES, END), gates(MOST_GATES + 1, END));
    let none = gates(0, END);
    for first in [&none, &most, &over] {
        for second in [&none, &most, &over] {
            for after in [&b""[..], b"\n", b"lines\t2\nend\n", b"x"] {
                seen.check(&[first, second, after].concat());
            }
        }
    }
    // a second file that is wrong or is not there, with other lines or marks
    for (_, text, _) in files::ROWS {
        for first in [&most, &over] {
            seen.check(&[first, *text].concat());
            seen.check(&[*text, first].concat());
        }
    }
    for other in [&b"lines\t3\nend\n"[..], b"lines\t2\njunk\t0\nend\n"] {
        for file in [&most, &over] {
            seen.check(&[file, other].concat());
            seen.check(&[other, file].concat());
        }
    }
    // what is wrong before `end`, after more gates than a file may have
    for last in [&b""[..], b"en", b"end", b"ends\n", b"g\t2\nend\n", b"g\t0\t+0\nend\n", b"junk\t0\nend\n", b"\nend\n"] {
        for number in [MOST_GATES, MOST_GATES + 1, 2 * MOST_GATES] {
            let wrong = gates(number, last);
            seen.check(&[&wrong, &none[..]].concat());
            seen.check(&[&none[..], &wrong].concat());
            seen.check(&[&over[..], &wrong].concat());
            seen.check(&[&wrong, &over[..]].concat());
        }
    }
    // as many as the bytes allow, and a list that is too long
    let all = (MOST_BYTES - 2 * none.len()) / 4;
    for number in [all - 1, all, all + 1] {
        let long = gates(number, END);
        seen.check(&[&long, &none[..]].concat());
        seen.check(&[&none[..], &long].concat());
    }
    for number in [MOST_GATES, MOST_GATES + 1] {
        let long = [b"lines\t4\n", &b"g\t0\t+1\t-2\t+3\n".repeat(number)[..], END].concat();
        seen.check(&[&long, &b"lines\t4\nend\n"[..]].concat());
        seen.check(&[b"lines\t4\nend\n", &long[..]].concat());
        seen.check(&[&long[..], &long].concat());
    }
}

/// An input of so many bytes: two good files, and a line after them.
fn long_input(bytes: usize) -> Vec<u8> {
    let mut input = b"lines\t2\ng\t0\nend\nlines\t2\ng\t1\nend\n".to_vec();
    input.resize(bytes, b'x');
    input
}

fn check_all(random: &mut Random, seen: &mut Seen) {
    const GOOD: &[u8] = b"lines\t4\ng\t1\t+0\nend\n";
    const MARKED: &[u8] = b"lines\t4\nconst\t2\t1\njunk\t1\ng\t1\t+0\nend\n";
    for (_, text, _) in files::ROWS {
        seen.check(&[text, GOOD].concat());
        seen.check(&[GOOD, text].concat());
        seen.check(&[text, MARKED].concat());
        seen.check(&[MARKED, text].concat());
        seen.check(&[*text, text].concat());
    }
    // other marks, and what is tested before: bytes after the second `end`, and 8
    seen.check(&[MARKED, GOOD, b"\n"].concat());
    seen.check(&[MARKED, b"lines\t5\nend\n"].concat());
    for (_, text, _) in files::long_rows() {
        seen.check(&[&text, GOOD].concat());
        seen.check(&[GOOD, &text].concat());
        seen.check(&[&text[..], &text[..]].concat());
    }
    for _ in 0..2_000 {
        seen.check(&pair(random));
        seen.check(&[files::word_text(random), files::word_text(random)].concat());
    }
    files::each_damaged(b"lines\t3\ng\t2\t+0\t-1\nend\nlines\t3\ng\t0\t-2\nend\n", &mut |text| seen.check(&text));
    let marked = b"lines\t3\nconst\t0\t1\njunk\t1\njunk\t2\ng\t2\t+0\t-1\nend\n";
    files::each_damaged(marked, &mut |text| {
        seen.check(&[&text[..], marked].concat());
        seen.check(&[marked, &text[..]].concat());
    });
    // 16,383 to 16,385 words, without marks and with a constant and a junk line, which are a word less
    for more in 0..3 {
        seen.check(&near_limit("", 74 - more, more));
        seen.check(&near_limit("const\t1\t0\njunk\t2\n", 73 - more, more + 1));
    }
    for bytes in [MOST_BYTES - 1, MOST_BYTES, MOST_BYTES + 1, MOST_BYTES + 2, 3 * MOST_BYTES] {
        seen.check(&long_input(bytes));
    }
    check_gates(seen);
}

// ---- pieces and errors of reading

/// The request's example: a whole text for any program that reads all of its input.
const EXAMPLE: &[u8] = b"lines\t2\ng\t1\t+0\nend\nlines\t2\nend\n";

/// The pieces in which an input comes, and the pause before each but the first.
fn pieces(input: &[u8]) -> Vec<(Vec<Vec<u8>>, Duration)> {
    let (first, second) = input.split_at(input.len() / 2);
    let bytes = input.iter().map(|byte| vec![*byte]).collect();
    vec![
        (bytes, Duration::ZERO),
        (vec![first.to_vec(), second.to_vec()], Duration::from_millis(50)),
        (vec![first.to_vec(), vec![], second.to_vec()], Duration::from_millis(10)),
    ]
}

/// Whether a program answers to an input in pieces as it should to the whole.
fn reads_pieces(program: &[&str], input: &[u8], right: &[u8]) -> bool {
    pieces(input).into_iter().all(|(pieces, pause)| {
        let output = run_in_pieces(program, pieces, pause);
        output.status.code() == Some(0) && output.stderr.is_empty() && output.stdout == right
    })
}

/// Inputs byte by byte and in two delayed writes; and a program that stops at a short read does not pass.
fn check_pieces(program: &str) {
    let long = long_input(MOST_BYTES);
    let over = long_input(MOST_BYTES + 1);
    for input in [EXAMPLE, b"lines\t1\n", &long, &over] {
        let (right, _) = answer(input);
        assert!(reads_pieces(&[program], input, &right), "an input in pieces of {} bytes", input.len());
    }
    let (right, _) = answer(EXAMPLE);
    let command = format!("dd bs=65537 count=1 status=none | {program}");
    assert!(!reads_pieces(&["sh", "-c", &command], EXAMPLE, &right), "a program that stops at a short read passes");
    println!("program: inputs byte by byte and in delayed writes; a program that stops at a short read is told");
}

/// The program told that it failed, why, and nothing else.
fn assert_failed(output: &Output, why: &str, what: &str) {
    let said = String::from_utf8_lossy(&output.stderr);
    assert!(output.status.code() == Some(0) && output.stdout == b"failed\n", "{what}: {output:?}");
    assert_eq!(said, format!("tomiter: standard input: {why}\n"), "{what}");
}

/// A read that fails at first, in the middle or at the end is told as failed, with its reason; a read that
/// was interrupted is made again.
fn check_failed_reads(program: &str) {
    let directory = std::fs::File::open("/").expect("the root folder");
    let output = Command::new(program).stdin(directory).output().expect("the program ends");
    assert_failed(&output, "Is a directory", "a folder");
    let output = Command::new("sh").args(["-c", "exec \"$0\" <&-", program]).output().expect("the program ends");
    assert_failed(&output, "Bad file descriptor", "a closed input");

    let reads = |error: i32, good: usize, bad: usize| {
        let mut child = Command::new(program)
            .env("LD_PRELOAD", "target/tests/reads.so")
            .env("READS", format!("{error} {good} {bad}"))
            .stdin(Stdio::piped())
            .stdout(Stdio::piped())
            .stderr(Stdio::piped())
            .spawn()
            .expect("the program starts");
        // Where a read fails, the program may end before it has taken all.
        let _ = child.stdin.take().expect("a pipe").write_all(EXAMPLE);
        child.wait_with_output().expect("the program ends")
    };
    const EINTR: i32 = 4;
    const EIO: i32 = 5;
    let (right, _) = answer(EXAMPLE);
    // The second file's `end` and its LF are the last bytes: after all of the input, at its end, and before.
    for good in [0, 1, EXAMPLE.len() / 2, EXAMPLE.len() - 1, EXAMPLE.len()] {
        assert_failed(&reads(EIO, good, 1), "Input/output error", "an error of reading");
        assert_failed(&reads(EINTR, good, 1_001), "Interrupted system call", "a read that is interrupted for ever");
        for bad in [0, 1, 1_000] {
            let output = reads(EINTR, good, bad);
            assert!(output.stdout == right && output.stderr.is_empty(), "{bad} interruptions after {good} bytes: {output:?}");
        }
    }
    println!("program: an error of reading is told, after any number of bytes; an interrupted read is made again");
}

// ---- the solver

/// Pairs on few lines, most with marks, of which the second is often the first, or has its gates in another
/// order.
fn check_solved(program: &str, random: &mut Random) {
    let kind = |header: Header, right: &[u64]| match (header.marked(), right.is_empty()) {
        _ if header.junk == inputs::all_lines(header.lines) => "no line counts",
        (false, true) => "equal",
        (false, false) => "differ",
        (true, true) => "marked, equal",
        (true, false) => "marked, differ",
    };
    let mut kinds = BTreeMap::new();
    for _ in 0..SOLVED {
        let lines = 1 + random.below(3);
        let gates = random.index(4);
        let marks = inputs::good_marks(random, lines);
        let first = inputs::good_cascade(random, lines, gates).with_marks(marks);
        let mut second = first.clone();
        match random.below(4) {
            0 => {}
            1 if gates > 0 => second.words.rotate_left(3),
            _ => second.words = inputs::good_cascade(random, lines, gates).words,
        }
        let written = run(program, &[first.text(), second.text()].concat());
        let header = first.header();
        let differ = |state: &u64| reference::differs(header, &first.words, header, &second.words, *state) == Ok(true);
        let right: Vec<u64> = (0..1 << lines).filter(differ).collect();
        let spelled = solver::spelled(lines, &written);
        assert_eq!(spelled, right, "A {first:?}, B {second:?}");
        *kinds.entry(kind(header, &right)).or_insert(0) += 1;
    }
    for (kind, count) in &kinds {
        println!("by the solver, {kind}: {count}");
    }
    assert_eq!(kinds.len(), 5, "a kind of pair did not occur");
}

fn main() {
    let seed = match std::env::args().nth(1) {
        Some(word) => word.parse().expect("the seed is a number below 2^64"),
        None => SEED,
    };
    let mut seen = Seen {
        program: built::built("tomiter"),
        cases: 0,
        outcomes: BTreeMap::new(),
    };
    check_all(&mut Random::new(seed), &mut seen);
    check_pieces(&seen.program);
    check_failed_reads(&seen.program);
    for (outcome, count) in &seen.outcomes {
        println!("{outcome}: {count}");
    }
    let mut wanted = ["served", "served, marked", "served, no line counts"].map(String::from).to_vec();
    wanted.extend([8, 10, 15].map(|number| format!("refused {number}, file 0")));
    // 16,385 gate lines, and so 6, are more bytes than an input may have
    for file in 1..=2 {
        wanted.extend([1, 2, 3, 4, 5, 10, 14].map(|number| format!("refused {number}, file {file}")));
    }
    for outcome in wanted {
        if !seen.outcomes.contains_key(&outcome) {
            println!("program: {outcome} did not occur");
            std::process::exit(1);
        }
    }
    if solver::is_there() {
        check_solved(&seen.program, &mut Random::new(seed));
    } else {
        println!("****************************************************************");
        println!("program: NO cryptominisat5: the solver was not asked");
        println!("****************************************************************");
    }
    println!("program: {} inputs, 0 mismatches", seen.cases);
}
