//! Runs the built programs compare and check_input on two files, good, damaged, cut, joined and too
//! long, with marks and without, and compares every byte that they write with the rules, which are written once more here. The
//! argument is the seed, where another than the fixed one is wanted.

mod built;
#[allow(dead_code)]
mod files;
#[allow(dead_code)]
mod inputs;
mod pairs;
#[allow(dead_code)]
mod random;
#[allow(dead_code)]
mod reference;

use pairs::Rewrites;
use random::Random;
use reference::{Clause, ClauseList, Gate, Header};
use std::collections::BTreeMap;
use std::ffi::OsStr;
use std::os::unix::ffi::OsStrExt;
use std::process::Command;

const SEED: u64 = 20_260_116;
const MOST_BYTES: usize = 524_288;
const MOST_GATES: usize = 8_192;
const MOST_WORDS: u64 = 300_000;
const MOST_SWEPT: u64 = 16;

// ---- the rules

/// Number, file and place.
type Refused = (u64, u64, u64);

/// The header and the gates of two files, each to its last byte.
fn pair(first: &[u8], second: &[u8]) -> Result<(Header, Vec<Gate>, Vec<Gate>), Refused> {
    for (text, file) in [(first, 1), (second, 2)] {
        if text.len() > MOST_BYTES {
            return Err((10, file, 0));
        }
    }
    let whole = |text: &[u8], file| {
        let read = reference::read_text(text).map_err(|why| (why.number, file, why.place))?;
        if read.gates.len() > MOST_GATES {
            return Err((10, file, 0));
        }
        if read.taken < text.len() {
            let lines = text[..read.taken].iter().filter(|byte| **byte == b'\n').count();
            return Err((1, file, lines as u64));
        }
        Ok(read)
    };
    let one = whole(first, 1)?;
    let two = whole(second, 2)?;
    if one.header.lines != two.header.lines {
        return Err((8, 0, 0));
    }
    if one.header != two.header {
        return Err((15, 0, 0));
    }
    Ok((one.header, one.gates, two.gates))
}

fn output(gates: &[Gate], state: u64) -> u64 {
    gates.iter().fold(state, |state, gate| gate.apply(state))
}

/// The OR clauses of a list: for an XOR, every assignment of its literals with an even number of true
/// ones is shut out, the literals that are true there negated; the last literal changes fastest.
fn plain(list: &ClauseList) -> Vec<Vec<i64>> {
    let mut clauses = Vec::new();
    for clause in &list.clauses {
        match clause {
            Clause::Or(literals) => clauses.push(literals.clone()),
            Clause::Xor(literals) => {
                let count = literals.len();
                for mask in 0u32..1 << count {
                    if mask.count_ones() % 2 == 0 {
                        let signed = |(i, literal): (usize, &i64)| if mask >> (count - 1 - i) & 1 == 1 { -literal } else { *literal };
                        clauses.push(literals.iter().enumerate().map(signed).collect());
                    }
                }
            }
        }
    }
    clauses
}

/// What compare writes, and its kind.
fn compared(first: &[u8], second: &[u8]) -> (String, String) {
    match pair(first, second).and_then(|(header, a, b)| decided(header, &a, &b)) {
        Ok(answer) => answer,
        Err((number, file, place)) => (format!("refused\t{number}\t{file}\t{place}\n"), format!("refused {number}, file {file}")),
    }
}

/// The gates that the full reduction leaves.
fn reduced(n: u64, gates: &[Gate]) -> Vec<Gate> {
    let mut words: Vec<u64> = gates.iter().flat_map(|gate| [gate.positive, gate.negative, gate.target]).collect();
    let left = reference::reduce(n, &mut words).expect("at most two cascades").gates;
    reference::gates_of(&words[..3 * left])
}

fn decided(header: Header, a: &[Gate], b: &[Gate]) -> Result<(String, String), Refused> {
    let n = header.lines;
    let kind = |kind: &str| format!("{kind}{}", if header.marked() { ", marked" } else { "" });
    let miter = reduced(n, &reference::miter_gates(a, b));
    if miter.is_empty() {
        return Ok(("equal\treduction\n".into(), kind("equal, reduction")));
    }
    if n <= MOST_SWEPT {
        let differ = |state: &u64| header.permits(*state) && !header.alike(output(a, *state), output(b, *state));
        return Ok(match (0..1u64 << n).find(differ) {
            None => ("equal\tsweep\n".into(), kind("equal, sweep")),
            Some(state) => (format!("differ\t{state}\t{}\t{}\n", output(a, state), output(b, state)), kind("differ")),
        });
    }
    let list = if header.marked() {
        reference::pair_list(header, &reduced(n, a), &reduced(n, b))
    } else {
        reference::clause_list(n, &miter)
    };
    if reference::sizes_of(&list).words > MOST_WORDS {
        return Err((10, 0, 0));
    }
    let clauses = plain(&list);
    let empty = clauses.iter().any(Vec::is_empty);
    let mut text = format!("p cnf {} {}\n", list.variables, clauses.len());
    for clause in clauses {
        let literals: Vec<String> = clause.iter().map(i64::to_string).collect();
        text += &literals.join(" ");
        text += " 0\n";
    }
    Ok((text, if empty { "clauses, no line counts".into() } else { kind("clauses") }))
}

/// What check_input writes, and its kind.
fn checked(first: &[u8], second: &[u8], state: &str) -> (String, String) {
    let answer = pair(first, second).and_then(|(header, a, b)| {
        let n = header.lines;
        if state.len() as u64 != n || state.bytes().any(|byte| byte != b'0' && byte != b'1') {
            return Err((9, 0, 0));
        }
        let x = state.bytes().rev().fold(0u64, |x, byte| 2 * x + u64::from(byte - b'0'));
        if !header.permits(x) {
            return Ok(("refused\t9\t0\t0\n".into(), "check: refused 9, a constant".into()));
        }
        let spelled = |y: u64| (0..n).map(|line| if y >> line & 1 == 1 { '1' } else { '0' }).collect::<String>();
        let (y, z) = (output(&a, x), output(&b, x));
        let word = if header.alike(y, z) { "agree" } else { "differ" };
        let kind = if y != z && word == "agree" { ", a junk line differs" } else { "" };
        Ok((format!("{word}\t{}\t{}\n", spelled(y), spelled(z)), format!("check: {word}{kind}")))
    });
    answer.unwrap_or_else(|(number, file, place)| (format!("refused\t{number}\t{file}\t{place}\n"), format!("check: refused {number}")))
}

// ---- the programs

struct Seen {
    compare: String,
    check_input: String,
    cases: u64,
    kinds: BTreeMap<String, u64>,
    folder: std::path::PathBuf,
}

impl Seen {
    fn run(&mut self, program: &str, words: &[&str], (right, kind): (String, String)) {
        let output = Command::new(program)
            .arg(self.folder.join("first"))
            .arg(self.folder.join("second"))
            .args(words)
            .output()
            .expect("the program runs");
        if output.stdout != right.as_bytes() || !output.stderr.is_empty() {
            println!("{program} {words:?}, files in {:?}", self.folder);
            println!("written: {:.300}", String::from_utf8_lossy(&output.stdout));
            println!("said: {:.300}", String::from_utf8_lossy(&output.stderr));
            println!("right: {right:.300}");
            std::process::exit(1);
        }
        self.cases += 1;
        *self.kinds.entry(kind).or_default() += 1;
    }

    fn put(&self, first: &[u8], second: &[u8]) {
        std::fs::write(self.folder.join("first"), first).expect("a file");
        std::fs::write(self.folder.join("second"), second).expect("a file");
    }

    fn compare(&mut self, first: &[u8], second: &[u8]) {
        self.put(first, second);
        self.run(&self.compare.clone(), &[], compared(first, second));
    }

    fn check(&mut self, first: &[u8], second: &[u8], state: &str) {
        self.put(first, second);
        self.run(&self.check_input.clone(), &[state], checked(first, second, state));
    }
}

// ---- files

/// A cascade, and one that is equal to it; or by one gate not.
fn rewritten(random: &mut Random, lines: u64, gates: usize, rewrites: usize) -> (Vec<Gate>, Vec<Gate>) {
    let first = reference::gates_of(&inputs::good_cascade(random, lines, gates).words);
    let mut second = first.clone();
    for _ in 0..rewrites {
        pairs::rewrite(random, lines, Rewrites::Any, &mut second);
    }
    if random.one_in(4) && !second.is_empty() {
        let at = random.index(second.len());
        second.remove(at);
    }
    (first, second)
}

/// A header without marks, or with any.
fn any_header(random: &mut Random, lines: u64) -> Header {
    let marks = inputs::good_marks(random, lines);
    inputs::from_zero(lines, vec![]).with_marks(if random.one_in(2) { marks } else { inputs::Marks::default() }).header()
}

/// Two cascades that are equal, and not by templates: exchanges of two lines in two orders.
fn exchanged(one: u64, other: u64) -> (Vec<Gate>, Vec<Gate>) {
    let add = |control: u64, target| Gate { positive: 1 << control, negative: 0, target };
    (vec![add(one, other), add(other, one), add(one, other)], vec![add(other, one), add(one, other), add(other, one)])
}

/// A gate with all other lines of n as negative controls: of gates with targets in turn each reads the target of
/// the one before, so that none matches.
fn full_gate(n: u64, target: u64) -> Gate {
    Gate { positive: 0, negative: inputs::all_lines(n) & !(1 << target), target }
}

/// A cascade on 64 lines: 927 full gates, targets in turn, which have 323 words each, then as many gates without
/// controls, of 4 words, and with one, of 5, each on a line of its own, so that none matches.
fn near_limit(header: Header, without: u64, with_one: u64) -> Vec<u8> {
    let mut gates: Vec<Gate> = (0..927).map(|k| full_gate(64, k % 64)).collect();
    let last = (0..without + with_one).map(|target| Gate { positive: if target < without { 0 } else { 1 << 63 }, negative: 0, target });
    gates.extend(last);
    reference::text_of(header, &gates)
}

/// The clause list at its limit and one word longer: 927 times 323 words, 5 a line and 66 for the last OR, which
/// leaves 193; a constant takes 3 words more, and a junk line 6 less.
fn check_words(seen: &mut Seen) {
    let unmarked = Header::unmarked(64);
    let marked = Header { constants: 2, junk: 4, ..unmarked };
    for (header, [without, with_one], kind) in [
        (unmarked, [47, 1], "clauses"),
        (unmarked, [46, 2], "refused 10, file 0"),
        (marked, [44, 4], "clauses, marked"),
        (marked, [43, 5], "refused 10, file 0"),
    ] {
        let words = 927 * 323 + 64 * 5 + 66 + 4 * without + 5 * with_one - if header.marked() { 3 } else { 0 };
        assert_eq!(words, MOST_WORDS + u64::from(kind.starts_with("refused")));
        let (first, none) = (near_limit(header, without, with_one), reference::text_of(header, &[]));
        assert_eq!(compared(&first, &none).1, kind);
        seen.compare(&first, &none);
        seen.compare(&none, &first);
    }
}

/// Files of as many gates as they may have, and of more, beside all that may be wrong besides.
fn check_gates(seen: &mut Seen) {
    const END: &[u8] = b"end\n";
    let gates = |number: usize, last: &[u8]| [b"lines\t2\n", &b"g\t0\t+1\ng\t1\t-0\n".repeat(number / 2)[..], &b"g\t0\n".repeat(number % 2)[..], last].concat();
    let (none, most, over) = (gates(0, END), gates(MOST_GATES, END), gates(MOST_GATES + 1, END));
    let mut both = |first: &[u8], second: &[u8]| {
        seen.compare(first, second);
        seen.check(first, second, "01");
    };
    both(&most, &none);
    both(&none, &most);
    for (first, second) in [(&over, &none), (&none, &over), (&over, &over), (&over, &most), (&most, &over)] {
        both(first, second);
        both(&[first, &b"\n"[..]].concat(), second);
        both(first, &[second, &b"x"[..]].concat());
    }
    // a second file that is wrong, with other lines or marks
    for text in [&b""[..], b"lines\t2\nend", b"lines\t3\nend\n", b"lines\t2\njunk\t0\nend\n", b"lines\t2\ng\t1\t+1\nend\n", b"lines\t2\nend\nend\n"] {
        for file in [&most, &over] {
            both(file, text);
            both(text, file);
        }
    }
    // what is wrong before `end`, after more gates than a file may have; 6 after the 16,384th
    for last in [&b""[..], b"end", b"g\t2\nend\n", b"g\t0\t+0\nend\n", b"junk\t0\nend\n", b"\nend\n"] {
        for number in [MOST_GATES, MOST_GATES + 1, 16_384] {
            let wrong = gates(number, last);
            both(&wrong, &none);
            both(&none, &wrong);
            both(&over, &wrong);
            both(&wrong, &over);
        }
    }
    for number in [16_384, 16_385] {
        both(&gates(number, END), &none);
        both(&none, &gates(number, END));
    }
    // as many gates as they may have, each with two controls, of which the target of the one before is one: the clause
    // list of any two such cascades is no longer than one may be
    let two = |positive: u64| {
        let gate = |k: u64| {
            let controls = 1 << ((k + 63) % 64) | 1 << ((k + 50) % 64);
            Gate { positive: controls & positive, negative: controls & !positive, target: k % 64 }
        };
        reference::text_of(Header::unmarked(64), &(0..MOST_GATES as u64).map(gate).collect::<Vec<_>>())
    };
    let (first, second) = (two(0), two(u64::MAX));
    assert_eq!(compared(&first, &second).1, "clauses");
    seen.compare(&first, &second);
    // a state that is none comes after
    seen.check(&over, &none, "2");
    seen.check(&none, &over, "011");
    seen.check(&most, &none, "2");
}

/// Files of as many bytes as they may have, and of one more; 10 comes before all that is wrong with the other.
fn check_bytes(seen: &mut Seen) {
    // 2,122 full gates on 64 lines, of 247 bytes, 4 gates of 4 bytes and 25 of 5; 13 bytes for the first and the last line
    let mut all: Vec<Gate> = (0..2_122).map(|k| full_gate(64, k % 64)).collect();
    all.extend((0..4).chain(10..35).map(|target| Gate { positive: 0, negative: 0, target }));
    let most = reference::text_of(Header::unmarked(64), &all);
    assert_eq!(most.len(), MOST_BYTES);
    assert_eq!(compared(&most, &most).1, "equal, reduction");
    let none = reference::text_of(Header::unmarked(64), &[]);
    let over = [&most, &b"\n"[..]].concat();
    let state = "0".repeat(64);
    for (first, second) in [(&most, &none), (&none, &most), (&most, &most), (&over, &none), (&none, &over), (&over, &over), (&most, &over), (&over, &most)] {
        seen.compare(first, second);
        seen.check(first, second, &state);
    }
    for wrong in [&b""[..], b"lines\t65\nend\n", b"lines\t17\nend\n", b"lines\t64\njunk\t0\nend\n"] {
        for file in [&most, &over] {
            seen.compare(file, wrong);
            seen.compare(wrong, file);
            seen.check(wrong, file, &state);
        }
    }
    const GOOD: &[u8] = b"lines\t4\ng\t1\t+0\nend\n";
    for bytes in [MOST_BYTES - 1, MOST_BYTES, MOST_BYTES + 1, 2 * MOST_BYTES] {
        let mut text = GOOD.to_vec();
        text.resize(bytes, b'x');
        seen.compare(&text, GOOD);
        seen.compare(GOOD, &text);
        seen.check(&text, GOOD, "0000");
        seen.check(GOOD, &text, "0000");
    }
}

fn check_all(random: &mut Random, seen: &mut Seen) {
    const GOOD: &[u8] = b"lines\t4\ng\t1\t+0\nend\n";
    const MARKED: &[u8] = b"lines\t4\nconst\t2\t1\njunk\t1\ng\t1\t+0\nend\n";
    for (_, text, _) in files::ROWS {
        for good in [GOOD, MARKED] {
            seen.compare(text, good);
            seen.compare(good, text);
            seen.check(text, good, "0101");
            seen.check(good, text, "1010");
        }
        seen.compare(text, text);
    }
    for (_, text, _) in files::long_rows() {
        seen.compare(&text, GOOD);
        seen.compare(GOOD, &text);
        seen.compare(&text, &text);
    }
    // two cascades in one file, and one that the other completes
    seen.compare(&[GOOD, GOOD].concat(), b"");
    seen.compare(b"", &[GOOD, GOOD].concat());
    for cut in 0..GOOD.len() {
        seen.compare(&GOOD[..cut], &[&GOOD[cut..], GOOD].concat());
    }
    for round in 0..1_500 {
        let lines = random.pick(&[1, 2, 3, 5, 8, 9, 16, 17, 18, 33, 63, 64]);
        let other = if random.one_in(12) { 1 + random.below(64) } else { lines };
        let gates = random.index(if lines > 10 && lines < 17 { 4 } else { 12 });
        let rewrites = random.index(12);
        let (a, b) = rewritten(random, lines, gates, rewrites);
        let (header, others) = (any_header(random, lines), any_header(random, other));
        let first = reference::text_of(header, &a);
        let second = match other == lines {
            true if random.one_in(12) => reference::text_of(others, &b),
            true => reference::text_of(header, &b),
            false => reference::text_of(others, &[]),
        };
        seen.compare(&first, &second);
        let honoured = if random.one_in(6) { 0 } else { header.constants };
        let bits = random.word() & !honoured | header.values & honoured;
        let mut state: String = (0..lines).map(|line| if bits >> line & 1 == 1 { '1' } else { '0' }).collect();
        match round % 8 {
            0 => state.push('0'),
            1 => state = state[1..].into(),
            2 => state.replace_range(0..1, "2"),
            _ => {}
        }
        seen.check(&first, &second, &state);
    }
    for lines in [2, 3, 16, 17, 40, 64] {
        let (a, b) = exchanged(0, lines - 1);
        let unmarked = Header::unmarked(lines);
        for header in [unmarked, Header { constants: 1, values: 1, ..unmarked }, Header { junk: 2, ..unmarked }] {
            seen.compare(&reference::text_of(header, &a), &reference::text_of(header, &b));
        }
        let no_line_counts = Header { junk: inputs::all_lines(lines), ..unmarked };
        seen.compare(&reference::text_of(no_line_counts, &a), &reference::text_of(no_line_counts, &[]));
    }
    // 1,000 gates a side, and the same with a gate gone; the sweep of 16 lines takes the rules too long
    for (lines, kind) in [(8, Rewrites::Any), (32, Rewrites::Any), (64, Rewrites::Any), (8, Rewrites::Templates), (16, Rewrites::Templates), (32, Rewrites::Templates), (64, Rewrites::Templates)] {
        let (a, mut b) = pairs::equal_pair(random, lines, 1_000, kind);
        for header in [Header::unmarked(lines), any_header(random, lines)] {
            let first = reference::text_of(header, &a);
            seen.compare(&first, &reference::text_of(header, &b));
            let at = random.index(b.len());
            b.remove(at);
            seen.compare(&first, &reference::text_of(header, &b));
        }
    }
    for marks in ["", "const\t1\t0\njunk\t0\njunk\t2\n"] {
        let damaged = format!("lines\t3\n{marks}g\t2\t+0\t-1\nend\n");
        let other = format!("lines\t3\n{marks}g\t0\t-2\nend\n");
        files::each_damaged(damaged.as_bytes(), &mut |text| {
            seen.compare(&text, other.as_bytes());
            seen.compare(other.as_bytes(), &text);
        });
    }
    // files of many bytes, and lists that are too long
    let longest = |header: Header, gates: usize| {
        let all: Vec<Gate> = (0..gates as u64).map(|k| Gate { positive: !(1 << (k % 64)) & 0x5555_5555_5555_5555u64.rotate_left((k / 64) as u32), negative: !(1 << (k % 64)) & !0x5555_5555_5555_5555u64.rotate_left((k / 64) as u32), target: k % 64 }).collect();
        reference::text_of(header, &all)
    };
    let marked = Header { constants: u64::MAX, values: 6, junk: u64::MAX, ..Header::unmarked(64) };
    for header in [Header::unmarked(64), marked] {
        let none = reference::text_of(header, &[]);
        seen.compare(&longest(header, 1_024), &none);
        seen.compare(&longest(header, 1_024), &longest(header, 1_024));
        seen.compare(&longest(header, 900), &none);
    }
    check_gates(seen);
    check_words(seen);
    check_bytes(seen);
}

/// The rooms of a program are within 6 MiB of stack, also for the longest files that it takes.
fn check_stack(seen: &mut Seen) {
    let full = |lines, gates: u64| -> Vec<Gate> { (0..gates).map(|k| full_gate(lines, k % lines)).collect() };
    let unmarked = Header::unmarked(64);
    let long = reference::text_of(unmarked, &full(64, 927));
    let longer = reference::text_of(unmarked, &full(64, 2_000));
    let many = reference::text_of(Header::unmarked(8), &full(8, MOST_GATES as u64));
    let none = |lines| reference::text_of(Header::unmarked(lines), &[]);
    for (first, second) in [(&longer, &longer), (&long, &none(64)), (&many, &none(8))] {
        seen.put(first, second);
        let state = "0".repeat(reference::read_text(first).expect("a file").header.lines as usize);
        let (right, kind) = compared(first, second);
        for (program, words, right) in [(&seen.compare, &[][..], right), (&seen.check_input, &[&state[..]][..], checked(first, second, &state).0)] {
            let output = Command::new("sh")
                .args(["-c", "ulimit -s 6144 && exec \"$0\" \"$@\"", program])
                .arg(seen.folder.join("first"))
                .arg(seen.folder.join("second"))
                .args(words)
                .output()
                .expect("the program runs");
            assert!(output.status.success() && output.stdout == right.as_bytes(), "{program} with a stack of 6 MiB, {kind}: {:?}", output.status);
        }
        seen.cases += 2;
    }
}

/// A file that cannot be read is told by its name, on both outputs.
fn check_unread(compare: &str, check_input: &str) {
    for (program, words) in [(compare, &["/nonexistent/one", "/dev/null"][..]), (compare, &["/dev/null", "/"][..]), (compare, &[][..]), (check_input, &["/dev/null"][..])] {
        let output = Command::new(program).args(words).output().expect("the program runs");
        assert!(output.stdout == b"failed\n" && !output.stderr.is_empty(), "{program} {words:?}: not told");
    }
    let output = Command::new(compare).args(["/dev/null", "/nonexistent/two"]).output().expect("the program runs");
    assert!(String::from_utf8_lossy(&output.stderr).contains("/nonexistent/two"));
    // a name that is no text: the file is there, and is not opened
    let folder = std::env::temp_dir().join(format!("unread-{}", std::process::id()));
    std::fs::create_dir(&folder).expect("a folder for a file");
    let file = folder.join(OsStr::from_bytes(b"\xff"));
    std::fs::write(&file, b"lines\t4\nend\n").expect("a file whose name is not UTF-8");
    let output = Command::new(compare).arg(&file).arg(&file).output().expect("the program runs");
    std::fs::remove_dir_all(&folder).expect("the folder goes");
    assert!(output.stdout == b"failed\n" && String::from_utf8_lossy(&output.stderr).contains("not UTF-8"));
}

fn main() {
    let seed = match std::env::args().nth(1) {
        Some(word) => word.parse().expect("the seed is a number below 2^64"),
        None => SEED,
    };
    let folder = std::env::temp_dir().join(format!("compare-{}", std::process::id()));
    std::fs::create_dir(&folder).expect("a folder");
    let (compare, check_input) = (built::built("compare"), built::built("check_input"));
    check_unread(&compare, &check_input);
    let mut seen = Seen { compare, check_input, cases: 0, kinds: BTreeMap::new(), folder };
    check_all(&mut Random::new(seed), &mut seen);
    check_stack(&mut seen);
    std::fs::remove_dir_all(&seen.folder).expect("the folder goes");
    let mut wanted: Vec<String> = ["check: agree", "check: agree, a junk line differs", "check: differ", "check: refused 9", "check: refused 9, a constant", "check: refused 15", "clauses, no line counts"].map(String::from).to_vec();
    for verdict in ["equal, reduction", "equal, sweep", "differ", "clauses"] {
        wanted.extend([verdict.to_string(), format!("{verdict}, marked")]);
    }
    wanted.extend([8, 10, 15].map(|number| format!("refused {number}, file 0")));
    for file in 1..=2 {
        wanted.extend([1, 2, 3, 4, 5, 6, 10, 14].map(|number| format!("refused {number}, file {file}")));
    }
    wanted.extend([6, 10].map(|number| format!("check: refused {number}")));
    for (kind, count) in &seen.kinds {
        println!("{kind}: {count}");
    }
    for kind in wanted {
        if !seen.kinds.contains_key(&kind) {
            println!("compare: {kind} did not occur");
            std::process::exit(1);
        }
    }
    println!("compare: {} runs, 0 mismatches", seen.cases);
}
