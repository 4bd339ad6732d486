//! Classes of cases that must occur for every call that is given a cascade, or two.

use crate::cases::{Pair, Single};
use crate::harness::{Counts, Element};
use crate::inputs::{self, Cascade};
use crate::reference::{self, has, Gate, Header, CASCADE_GATES, MITER_GATES};

/// What a call is given with the words of a cascade.
#[derive(Clone, Copy, PartialEq)]
pub enum Given {
    Lines,
    Header,
}

impl Given {
    /// The tests of a cascade, in their order.
    fn tests(self) -> &'static [u64] {
        match self {
            Given::Lines => &[2, 11, 6, 7],
            Given::Header => &[2, 14, 11, 6, 7],
        }
    }
}

/// The classes that `count_cascade` counts.
const CASCADE: &[&str] = &[
    "2: n = 0",
    "2: n = 65",
    "2: n = 2^32",
    "2: n = 2^64 - 1",
    "11: one word over",
    "11: two words over",
    "6: one gate over the limit",
    "6: twice the limit",
    "7: the first gate of several",
    "7: the last gate of several",
    "7: a gate between",
    "7: another bad gate later",
    "7: only target n",
    "7: only target above n, below 64",
    "7: only target 64 or more",
    "7: only positive control n",
    "7: only positive controls above n",
    "7: only negative control n",
    "7: only negative controls above n",
    "7: only a line in both masks",
    "7: only the target in the positive mask",
    "7: only the target in the negative mask",
    "served: n = 1",
    "served: n = 2",
    "served: n = 63",
    "served: n = 64",
    "served: no gates",
    "served: one gate below the limit",
    "served: as many gates as the limit",
    "served: target n - 1",
    "served: positive control n - 1",
    "served: negative control n - 1",
    "served: n = 64, all lines in a gate",
];

/// The classes that `count_out` counts, the pointers aside.
const BUFFER: &[&str] = &[
    "served: buffer exact",
    "served: buffer one longer",
    "served: buffer more than one longer",
    "10: one short",
    "10: empty buffer",
];

/// The classes that `count_targets` counts.
pub const TARGETS: &[&str] = &[
    "served: a line targeted twice",
    "served: as many gates as the limit, 63 controls each",
];

/// The classes that `count_marks` counts.
const MARKS: &[&str] = &[
    "14: only a constant at n",
    "14: only constants above n",
    "14: only a junk line at n",
    "14: only junk lines above n",
    "14: only value 1 on a line that is no constant",
    "14: n = 64",
    "served: no marks",
    "served: constants alone",
    "served: junk lines alone",
    "served: constants and junk lines",
    "served: a constant of value 0",
    "served: a constant of value 1",
    "served: all lines constant",
    "served: all lines junk",
    "served: a line both constant and junk",
    "served: line n - 1 constant",
    "served: line n - 1 junk",
    "served: a constant on a target",
    "served: a junk line on a target",
];

/// Those that it counts besides of calls that serve 64 lines.
const WIDE_MARKS: &[&str] = &["served: line 63 constant", "served: line 63 junk"];

/// The classes that `count_different_marks` counts.
const DIFFERENT_MARKS: &[&str] = &[
    "15: only constants differ",
    "15: only values differ",
    "15: only junk lines differ",
    "15: only the first is marked",
    "15: only the second is marked",
];

/// The table of a call on one cascade: its further tests in their order, its buffers, and the classes
/// of its own.
pub fn single_counts(
    call: &'static str,
    given: Given,
    further: &[u64],
    buffers: &[&str],
    own: &[&str],
) -> Counts {
    let mut counts = Counts::new(call);
    counts.require_refusals(&[given.tests(), further].concat());
    counts.require(CASCADE);
    if given == Given::Header {
        counts.require(MARKS);
        counts.require(WIDE_MARKS);
    }
    require_buffers(&mut counts, buffers);
    counts.require(own);
    counts
}

/// The same for a call on two cascades. The tests by name are those of the first, those of the second,
/// 8, with headers 15, and the further ones.
pub fn pair_counts(
    call: &'static str,
    given: Given,
    further: &[u64],
    buffers: &[&str],
    own: &[&str],
) -> Counts {
    let mut names = Vec::new();
    for which in ["first", "second"] {
        names.extend(given.tests().iter().map(|number| of(*number, which)));
    }
    let both: &[u64] = match given {
        Given::Lines => &[8],
        Given::Header => &[8, 15],
    };
    names.extend([both, further].concat().iter().map(u64::to_string));
    let mut counts = Counts::new(call);
    counts.require_tests(&names);
    if given == Given::Header {
        counts.require(MARKS);
        counts.require(DIFFERENT_MARKS);
        if !further.contains(&13) {
            counts.require(WIDE_MARKS);
        }
    }
    require_buffers(&mut counts, buffers);
    counts.require(own);
    counts
}

fn of(number: u64, which: &str) -> String {
    format!("{number} of the {which}")
}

/// Each of the buffers must be empty with both kinds of pointer; the one that the call writes, `out`,
/// must have the lengths around what the answer needs.
pub fn require_buffers(counts: &mut Counts, buffers: &[&str]) {
    for buffer in buffers {
        counts.require(&[&empty(buffer, false), &empty(buffer, true)]);
    }
    if buffers.contains(&"out") {
        counts.require(BUFFER);
    }
}

/// Counts a call on a cascade of up to `limit` gates that answered the number. `further` tells of each
/// test after those of the cascade whether it holds, judged by itself.
pub fn count_single<T>(
    counts: &mut Counts,
    case: &Single<T>,
    given: Given,
    limit: usize,
    further: &[(u64, bool)],
    number: u64,
) {
    let cascade = &case.cascade;
    let mut offences = cascade_offences(cascade, given, limit);
    offences.extend(holding(further));
    counts.add_case(&offences);
    count_cascade(counts, cascade.lines, &cascade.words, limit, number);
    if given == Given::Header {
        count_marks(counts, cascade.header(), &[&cascade.words], number);
    }
    count_pointer(counts, "words", &cascade.words, case.dangling);
}

/// The same for a call on two cascades.
pub fn count_pair<T: Element>(
    counts: &mut Counts,
    case: &Pair<T>,
    given: Given,
    further: &[(u64, bool)],
) {
    let Pair { a, b, .. } = case;
    let of_first = cascade_offences(a, given, CASCADE_GATES);
    let of_second = cascade_offences(b, given, CASCADE_GATES);
    let mut both = vec![(8, a.lines != b.lines)];
    if given == Given::Header {
        both.push((15, reference::different_marks(a.header(), b.header())));
    }
    let later = holding(&[&both, further].concat());
    let mut offences: Vec<String> = of_first.iter().map(|number| of(*number, "first")).collect();
    offences.extend(of_second.iter().map(|number| of(*number, "second")));
    offences.extend(later.iter().map(u64::to_string));
    counts.add_tested_case(&offences);
    if given == Given::Header {
        let numbers = [&of_first[..], &of_second, &later].concat();
        let number = numbers.first().copied().unwrap_or(0);
        let refused = if of_first.is_empty() { b } else { a };
        count_marks(counts, refused.header(), &[&a.words, &b.words], number);
        if number == 15 {
            count_different_marks(counts, a.header(), b.header());
        }
    }
    count_pointer(counts, "a", &a.words, case.dangling);
    count_pointer(counts, "b", &b.words, case.dangling);
}

/// The numbers of the tests of a cascade that hold of it, each judged by itself.
fn cascade_offences(cascade: &Cascade, given: Given, limit: usize) -> Vec<u64> {
    let Cascade { lines, words, .. } = cascade;
    let marks = given == Given::Header && reference::bad_marks(cascade.header());
    holding(&[
        (2, reference::bad_line_count(*lines)),
        (14, marks),
        (11, reference::bad_word_count(words)),
        (6, reference::too_many_gates(words, limit)),
        (7, reference::first_bad_gate(*lines, words).is_some()),
    ])
}

/// Those of the tests that hold.
fn holding<T: Copy>(tests: &[(T, bool)]) -> Vec<T> {
    let held = tests.iter().filter(|(_, holds)| *holds);
    held.map(|(test, _)| *test).collect()
}

/// Counts the kind of pointer of a buffer that is empty.
pub fn count_pointer<T>(counts: &mut Counts, buffer: &str, contents: &[T], dangling: bool) {
    if contents.is_empty() {
        counts.add(&empty(buffer, dangling));
    }
}

fn empty(buffer: &str, dangling: bool) -> String {
    let pointer = if dangling {
        "dangling pointer"
    } else {
        "pointer to memory"
    };
    format!("{buffer}: empty, {pointer}")
}

/// Counts the buffer that a call writes, for an answer of `needed` elements, in a call that answered
/// the number.
pub fn count_out<T>(counts: &mut Counts, out: &[T], dangling: bool, needed: usize, number: u64) {
    count_pointer(counts, "out", out, dangling);
    if number == 0 {
        let longer = out.len() - needed;
        counts.add_if(longer == 0, "served: buffer exact");
        counts.add_if(longer == 1, "served: buffer one longer");
        counts.add_if(longer > 1, "served: buffer more than one longer");
    }
    if number == 10 {
        counts.add_if(out.len() + 1 == needed, "10: one short");
        counts.add_if(out.is_empty(), "10: empty buffer");
    }
}

/// Counts the classes of a cascade in a call that answered the number.
fn count_cascade(counts: &mut Counts, lines: u64, words: &[u64], limit: usize, number: u64) {
    let gates = words.len() / 3;
    match number {
        0 => count_served(counts, lines, words, limit),
        2 => count_line_count(counts, lines),
        11 => counts.add(["11: one word over", "11: two words over"][words.len() % 3 - 1]),
        6 => {
            counts.add_if(gates == limit + 1, "6: one gate over the limit");
            counts.add_if(gates == 2 * limit, "6: twice the limit");
        }
        7 => count_bad_gates(counts, lines, words),
        _ => {}
    }
}

/// Counts the marks of a header in a call that answered the number: of 14 the header that has them, else
/// that of all the cascades with these words.
fn count_marks(counts: &mut Counts, header: Header, words: &[&[u64]], number: u64) {
    match number {
        0 => count_served_marks(counts, header, words),
        14 => {
            counts.add_if(header.lines == 64, "14: n = 64");
            if let [defect] = mark_defects(header)[..] {
                counts.add(&format!("14: only {defect}"));
            }
        }
        _ => {}
    }
}

fn count_served_marks(counts: &mut Counts, header: Header, words: &[&[u64]]) {
    let Header {
        lines,
        constants,
        values,
        junk,
    } = header;
    counts.add(match (constants != 0, junk != 0) {
        (false, false) => "served: no marks",
        (true, false) => "served: constants alone",
        (false, true) => "served: junk lines alone",
        (true, true) => "served: constants and junk lines",
    });
    let all = inputs::all_lines(lines);
    counts.add_if(constants & !values != 0, "served: a constant of value 0");
    counts.add_if(constants & values != 0, "served: a constant of value 1");
    counts.add_if(constants == all, "served: all lines constant");
    counts.add_if(junk == all, "served: all lines junk");
    let both = constants & junk != 0;
    counts.add_if(both, "served: a line both constant and junk");
    let last = lines - 1;
    counts.add_if(has(constants, last), "served: line n - 1 constant");
    counts.add_if(has(junk, last), "served: line n - 1 junk");
    counts.add_if(has(constants, 63), "served: line 63 constant");
    counts.add_if(has(junk, 63), "served: line 63 junk");
    let gates: Vec<Gate> = words
        .iter()
        .flat_map(|words| reference::gates_of(words))
        .collect();
    let targeted = |mask| gates.iter().any(|gate| has(mask, gate.target));
    counts.add_if(targeted(constants), "served: a constant on a target");
    counts.add_if(targeted(junk), "served: a junk line on a target");
}

/// What is wrong with the marks of a header.
fn mark_defects(header: Header) -> Vec<&'static str> {
    let Header {
        lines,
        constants,
        values,
        junk,
    } = header;
    let above = |mask: u64| mask & !inputs::all_lines(lines);
    let at = |mask: u64| lines < 64 && above(mask) == 1 << lines;
    let off_constants = values & !constants != 0;
    holding(&[
        ("a constant at n", at(constants)),
        ("constants above n", above(constants) != 0 && !at(constants)),
        ("a junk line at n", at(junk)),
        ("junk lines above n", above(junk) != 0 && !at(junk)),
        ("value 1 on a line that is no constant", off_constants),
    ])
}

fn count_different_marks(counts: &mut Counts, first: Header, second: Header) {
    let constants = first.constants != second.constants;
    let values = first.values != second.values;
    let junk = first.junk != second.junk;
    match (constants, values, junk) {
        (true, false, false) => counts.add("15: only constants differ"),
        (false, true, false) => counts.add("15: only values differ"),
        (false, false, true) => counts.add("15: only junk lines differ"),
        _ => {}
    }
    match (first.marked(), second.marked()) {
        (true, false) => counts.add("15: only the first is marked"),
        (false, true) => counts.add("15: only the second is marked"),
        _ => {}
    }
}

fn count_line_count(counts: &mut Counts, lines: u64) {
    counts.add_if(lines == 0, "2: n = 0");
    counts.add_if(lines == 65, "2: n = 65");
    counts.add_if(lines == 1 << 32, "2: n = 2^32");
    counts.add_if(lines == u64::MAX, "2: n = 2^64 - 1");
}

fn count_served(counts: &mut Counts, lines: u64, words: &[u64], limit: usize) {
    let gates = reference::gates_of(words);
    counts.add_if(lines == 1, "served: n = 1");
    counts.add_if(lines == 2, "served: n = 2");
    counts.add_if(lines == 63, "served: n = 63");
    counts.add_if(lines == 64, "served: n = 64");
    counts.add_if(gates.is_empty(), "served: no gates");
    counts.add_if(gates.len() == limit - 1, "served: one gate below the limit");
    counts.add_if(gates.len() == limit, "served: as many gates as the limit");
    let last = lines - 1;
    let any = |test: &dyn Fn(&Gate) -> bool| gates.iter().any(test);
    counts.add_if(any(&|g| g.target == last), "served: target n - 1");
    counts.add_if(
        any(&|g| has(g.positive, last)),
        "served: positive control n - 1",
    );
    counts.add_if(
        any(&|g| has(g.negative, last)),
        "served: negative control n - 1",
    );
    let all_lines = |g: &Gate| (0..64).all(|k| has(g.positive | g.negative, k) || g.target == k);
    counts.add_if(
        lines == 64 && any(&all_lines),
        "served: n = 64, all lines in a gate",
    );
}

/// Counts the gates of a cascade on n lines whose clauses are asked for. Returns how many gates each
/// line is the target of.
pub fn count_targets(counts: &mut Counts, n: u64, gates: &[Gate]) -> Vec<u64> {
    let mut targets = vec![0; n as usize];
    for gate in gates {
        targets[gate.target as usize] += 1;
    }
    counts.add_if(targets.contains(&2), "served: a line targeted twice");
    let most = |gate: &Gate| (gate.positive | gate.negative).count_ones() == 63;
    counts.add_if(
        gates.len() == MITER_GATES && gates.iter().all(most),
        "served: as many gates as the limit, 63 controls each",
    );
    targets
}

/// The classes that `count_pair_list` counts, the numbers of controls aside.
const PAIR_LIST: &[&str] = &[
    "served: unmarked, the second has other gates reversed",
    "served: marked, no line that counts is targeted",
    "served: marked, a line that counts targeted by the first alone",
    "served: marked, a line that counts targeted by the second alone",
    "served: marked, a line that counts targeted by both",
    "served: marked, a line that counts after a junk line",
    "served: marked, the second reads a line that the first targets",
    "served: marked, as many gates as the limit each, 63 controls each, all constant, none junk",
];

/// The classes of a call that is asked for the clauses of two cascades.
pub fn require_pair_list(counts: &mut Counts) {
    counts.require(PAIR_LIST);
    for controls in 0..64 {
        for which in ["first", "second"] {
            counts.require(&[&marked_with_controls(controls, which)]);
        }
    }
}

fn marked_with_controls(controls: u32, which: &str) -> String {
    format!("served: marked, a gate of the {which} with {controls} controls")
}

/// Counts two cascades whose clauses are asked for, in a call that is served.
pub fn count_pair_list(counts: &mut Counts, a: &Cascade, b: &Cascade) {
    let (first, second) = (reference::gates_of(&a.words), reference::gates_of(&b.words));
    let header = a.header();
    if !header.marked() {
        let reversed: Vec<Gate> = second.iter().rev().copied().collect();
        let other = reversed != second;
        counts.add_if(
            other,
            "served: unmarked, the second has other gates reversed",
        );
        return;
    }
    for (gates, which) in [(&first, "first"), (&second, "second")] {
        for gate in gates {
            let controls = (gate.positive | gate.negative).count_ones();
            counts.add(&marked_with_controls(controls, which));
        }
    }
    let targets = |gates: &[Gate]| {
        gates
            .iter()
            .fold(0, |mask, gate| mask | 1u64 << gate.target)
    };
    let (by_first, by_second) = (targets(&first), targets(&second));
    let counted = inputs::all_lines(header.lines) & !header.junk;
    let targeted = |mask: u64| mask & counted != 0;
    let none = counted != 0 && !targeted(by_first | by_second);
    counts.add_if(none, "served: marked, no line that counts is targeted");
    let alone = "served: marked, a line that counts targeted by the first alone";
    counts.add_if(targeted(by_first & !by_second), alone);
    let alone = "served: marked, a line that counts targeted by the second alone";
    counts.add_if(targeted(by_second & !by_first), alone);
    let both = "served: marked, a line that counts targeted by both";
    counts.add_if(targeted(by_first & by_second), both);
    let after = header.junk != 0 && counted >> header.junk.trailing_zeros() != 0;
    counts.add_if(
        after,
        "served: marked, a line that counts after a junk line",
    );
    let lines = |gate: &Gate| gate.positive | gate.negative | 1 << gate.target;
    let reads = second.iter().any(|gate| lines(gate) & by_first != 0);
    counts.add_if(
        reads,
        "served: marked, the second reads a line that the first targets",
    );
    let most = |gates: &[Gate]| {
        gates.len() == CASCADE_GATES
            && gates
                .iter()
                .all(|gate| (gate.positive | gate.negative).count_ones() == 63)
    };
    counts.add_if(
        most(&first) && most(&second) && header.constants == u64::MAX && header.junk == 0,
        "served: marked, as many gates as the limit each, 63 controls each, all constant, none junk",
    );
}

/// Where the first bad gate stands, and what is wrong with it where that is one thing.
fn count_bad_gates(counts: &mut Counts, lines: u64, words: &[u64]) {
    let gates = reference::gates_of(words);
    let bad: Vec<usize> = (0..gates.len())
        .filter(|i| !gates[*i].valid(lines))
        .collect();
    let (first, last) = (bad[0], gates.len() - 1);
    counts.add_if(first == 0 && last > 0, "7: the first gate of several");
    counts.add_if(first == last && last > 0, "7: the last gate of several");
    counts.add_if(0 < first && first < last, "7: a gate between");
    counts.add_if(bad.len() > 1, "7: another bad gate later");
    if let [defect] = defects(lines, gates[first])[..] {
        counts.add(&format!("7: only {defect}"));
    }
}

/// All that keeps the words from being a gate on n lines.
fn defects(n: u64, gate: Gate) -> Vec<&'static str> {
    let Gate {
        positive,
        negative,
        target,
    } = gate;
    let lines = |test: &dyn Fn(u64) -> bool| (0..64).filter(|k| test(*k)).collect::<Vec<u64>>();
    let positive_over = lines(&|k| k >= n && has(positive, k));
    let negative_over = lines(&|k| k >= n && has(negative, k));
    let both = lines(&|k| has(positive, k) && has(negative, k));
    let target_in = |mask| target < 64 && has(mask, target);
    let found = [
        (target == n && n < 64, "target n"),
        (target > n && target < 64, "target above n, below 64"),
        (target >= 64, "target 64 or more"),
        (positive_over == [n], "positive control n"),
        (
            !positive_over.is_empty() && positive_over != [n],
            "positive controls above n",
        ),
        (negative_over == [n], "negative control n"),
        (
            !negative_over.is_empty() && negative_over != [n],
            "negative controls above n",
        ),
        (!both.is_empty(), "a line in both masks"),
        (target_in(positive), "the target in the positive mask"),
        (target_in(negative), "the target in the negative mask"),
    ];
    found
        .iter()
        .filter(|(holds, _)| *holds)
        .map(|(_, name)| *name)
        .collect()
}
