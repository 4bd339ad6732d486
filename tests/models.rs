//! The satisfying assignments of emitted clauses on small cascades, against simulation: pairs, also
//! after lists of steps and reductions on their miter; and pairs with constants and junk lines, also
//! after such lists on each of the two alone. Every assignment is tried, and CryptoMiniSat is asked as
//! well where it is there. The spelled inputs are compared, and not just counted. Long pairs are judged by the
//! solver alone.

#[allow(dead_code)]
mod capi;
mod lists;
#[allow(dead_code)]
mod random;
mod solver;

use capi::Header;
use lists::{Clause, List, dimacs, emit, miter};
use random::Random;
use std::collections::BTreeMap;

const SEED: u64 = 20_240_601;
/// Pairs that are tried by every assignment, and of these the ones that the solver gets too.
const PAIRS: usize = 3_000;
const SOLVED: usize = 400;
/// The same of pairs with marks.
const MARKED_PAIRS: usize = 6_000;
const MARKED_SOLVED: usize = 400;
/// The gates of each of two long cascades, at least.
const LONG: usize = 3_000;
/// Long pairs of each kind.
const LONG_PAIRS: usize = 3;
/// Lists with more variables are not tried by every assignment.
const MOST_VARIABLES: u64 = 18;
/// Pairs, equal ones and others, of which at least so many are tried after a step that only T-01's rule
/// allows.
const AFTER_PASSING: u64 = 100;

// ---- cascades by simulation, written out line by line

type Gate = [u64; 3];

fn bit(word: u64, line: u64) -> bool {
    word >> line & 1 == 1
}

fn simulate(gates: &[Gate], input: u64) -> u64 {
    let mut state = input;
    for &[positive, negative, target] in gates {
        let met = |line| {
            (!bit(positive, line) || bit(state, line)) && (!bit(negative, line) || !bit(state, line))
        };
        if (0..64).all(met) {
            state ^= 1 << target;
        }
    }
    state
}

fn random_gate(random: &mut Random, lines: u64) -> Gate {
    let target = random.below(lines);
    let all = (1 << lines) - 1;
    let controls = random.word() & all & !(1 << target);
    let positive = controls & random.word();
    [positive, controls & !positive, target]
}

/// Two gates that T-01's rule lets pass and 01's does not, where the draw gives such: the second has the
/// first's target for a control, and a control of opposite polarity on another line.
fn passing_gates(random: &mut Random, lines: u64) -> Option<[Gate; 2]> {
    let g = random_gate(random, lines);
    let own = g[0] | g[1];
    let opposing = random.below(lines);
    if !bit(own, opposing) {
        return None;
    }
    let target = random.below(lines);
    if target == g[2] || target == opposing {
        return None;
    }
    let mut masks = [1 << g[2], 0];
    masks.swap(0, random.below(2) as usize);
    masks[usize::from(bit(g[0], opposing))] |= 1 << opposing;
    Some([g, [masks[0], masks[1], target]])
}

/// A is g h g of such gates, and B is h, or two gates of which one is h: the first step of the miter takes
/// out both g, which only T-01's rule allows.
fn passing_pair(random: &mut Random, lines: u64) -> Option<(Vec<Gate>, Vec<Gate>)> {
    let [g, h] = passing_gates(random, lines)?;
    let mut b = vec![h];
    if random.one_in(2) {
        b.insert(random.index(2), random_gate(random, lines));
    }
    Some((vec![g, h, g], b))
}

/// B is often A with few changes, so that steps find matches and many pairs are equal.
fn random_pair(random: &mut Random, lines: u64) -> (Vec<Gate>, Vec<Gate>) {
    let a: Vec<Gate> = (0..random.below(4)).map(|_| random_gate(random, lines)).collect();
    let mut b = a.clone();
    match random.below(4) {
        0 => {}
        1 if !b.is_empty() => {
            let place = random.index(b.len());
            b[place] = random_gate(random, lines);
        }
        2 => b.push(random_gate(random, lines)),
        _ => b = (0..random.below(4)).map(|_| random_gate(random, lines)).collect(),
    }
    (a, b)
}

fn unmarked(lines: u64) -> Header {
    Header { lines, constants: 0, values: 0, junk: 0 }
}

/// Constants and junk lines, often all lines, and not without any.
fn random_marks(random: &mut Random, lines: u64) -> Header {
    let all = (1 << lines) - 1;
    let mut mask = || if random.one_in(4) { all } else { random.word() & random.word() & all };
    let (constants, junk) = (mask(), mask());
    if constants | junk == 0 {
        return random_marks(random, lines);
    }
    Header { lines, constants, values: constants & random.word(), junk }
}

// ---- the calls

const EQUAL_AFTER_PASSING: &str = "pair: equal, after a step that only T-01's rule allows";
const SOLVED_EMPTY: &str = "marked pair: a clause without literals, by the solver";
const DIFFERS_AFTER_PASSING: &str = "pair: differs, after a step that only T-01's rule allows";

/// How often each kind of call and answer occurred.
type Seen = BTreeMap<&'static str, u64>;

fn see(seen: &mut Seen, what: &'static str) {
    *seen.entry(what).or_default() += 1;
}

/// Any number as a call's n: right, larger, smaller, or out of range.
fn any_lines(random: &mut Random, lines: u64) -> u64 {
    match random.below(6) {
        0 => lines + 1 + random.below(8),
        1 => lines.saturating_sub(1),
        2 => random.pick(&[0, 65, u64::MAX]),
        3 => 64,
        _ => lines,
    }
}

/// Whether the target of one of two gates is a control of the other.
fn reads(g: &[u64], h: &[u64]) -> bool {
    bit(h[0] | h[1], g[2]) || bit(g[0] | g[1], h[2])
}

/// Makes a step, and tells whether only T-01's rule allows it.
fn step(words: &mut Vec<u64>, lines: u64, seen: &mut Seen) -> bool {
    let before = words.clone();
    let answer = unsafe { capi::cascade_step(lines, words.as_mut_ptr(), words.len()) };
    if answer.number == 0 && answer.found == 1 {
        words.truncate(3 * answer.gates as usize);
        see(seen, "step: found");
        let gates: Vec<&[u64]> = before.chunks(3).collect();
        let (i, j) = (answer.i as usize, answer.j as usize);
        gates[i + 1..j].iter().any(|between| reads(gates[i], between))
    } else {
        assert_eq!(*words, before, "a step that found nothing changed the words");
        see(seen, if answer.number == 0 { "step: none" } else { "step: refused" });
        false
    }
}

fn reduce(words: &mut Vec<u64>, lines: u64, seen: &mut Seen) {
    let before = words.clone();
    let answer = unsafe { capi::cascade_reduce(lines, words.as_mut_ptr(), words.len()) };
    if answer.number == 0 {
        words.truncate(3 * answer.gates as usize);
        see(seen, "reduction: served");
    } else {
        assert_eq!(*words, before, "a refused reduction changed the words");
        see(seen, "reduction: refused");
    }
}

// ---- the emitted clauses

fn is_true(literal: i64, assignment: u64) -> bool {
    bit(assignment, literal.unsigned_abs() - 1) == (literal > 0)
}

fn satisfied(clause: &Clause, assignment: u64) -> bool {
    let count = clause.literals.iter().filter(|&&l| is_true(l, assignment)).count();
    if clause.xor {
        count % 2 == 1
    } else {
        count > 0
    }
}

/// How many satisfying assignments spell each input.
type Spelled = BTreeMap<u64, u64>;

fn enumerate(lines: u64, list: &List) -> Spelled {
    let mut spelled = Spelled::new();
    for assignment in 0..1u64 << list.variables {
        if list.clauses.iter().all(|clause| satisfied(clause, assignment)) {
            *spelled.entry(assignment % (1 << lines)).or_default() += 1;
        }
    }
    spelled
}

/// The same from the solver, of the list's text.
fn solve(lines: u64, text: &str) -> Spelled {
    let mut spelled = Spelled::new();
    for input in solver::spelled(lines, text.as_bytes()) {
        *spelled.entry(input).or_default() += 1;
    }
    spelled
}

/// The inputs that honour the constants and on which a line that is not junk comes out differently, once
/// each.
fn differing(header: Header, a: &[Gate], b: &[Gate]) -> Spelled {
    let honours = |input, line| !bit(header.constants, line) || bit(input, line) == bit(header.values, line);
    let differ = |&input: &u64| {
        let (one, other) = (simulate(a, input), simulate(b, input));
        let counts = |line| !bit(header.junk, line) && bit(one, line) != bit(other, line);
        (0..header.lines).all(|line| honours(input, line)) && (0..header.lines).any(counts)
    };
    (0..1 << header.lines).filter(differ).map(|input| (input, 1)).collect()
}

// ---- paper 001, example 5

/// Eight gates on three lines that are the identity: 16 variables, 18 clauses, unsatisfiable.
fn example_five() {
    let gates: [Gate; 8] = [
        [1, 0, 1],
        [2, 0, 0],
        [0, 0, 1],
        [3, 0, 2],
        [0, 0, 1],
        [2, 0, 0],
        [1, 0, 1],
        [3, 0, 2],
    ];
    let list = emit(3, &gates.concat());
    assert_eq!((list.variables, list.clauses.len()), (16, 18));
    assert!(enumerate(3, &list).is_empty(), "example 5 has a model");
}

// ---- pairs

/// A list of up to so many calls on the words. Tells whether only T-01's rule allows a step of it.
fn any_calls(random: &mut Random, words: &mut Vec<u64>, lines: u64, calls: u64, seen: &mut Seen) -> bool {
    let mut wider = false;
    for _ in 0..calls {
        let number = any_lines(random, lines);
        if random.one_in(3) {
            reduce(words, number, seen);
        } else {
            wider |= step(words, number, seen);
        }
    }
    wider
}

/// Pairs without marks, also after calls on their miter.
fn check_pairs(random: &mut Random, with_solver: bool, seen: &mut Seen) {
    let (mut tried, mut solved) = (0, 0);
    while tried < PAIRS {
        let lines = 1 + random.below(3);
        let mut passing = None;
        if lines == 3 && !random.one_in(3) {
            passing = (0..100).find_map(|_| passing_pair(random, lines));
        }
        let fewest = u64::from(passing.is_some());
        let (a, b) = match passing {
            Some(pair) => pair,
            None => random_pair(random, lines),
        };
        let mut words = miter(lines, &a, &b);
        let calls = fewest + random.below(4 - fewest);
        let wider = any_calls(random, &mut words, lines, calls, seen);
        let list = emit(lines, &words);
        if list.variables > MOST_VARIABLES {
            see(seen, "too many variables, not tried");
            continue;
        }
        let right = differing(unmarked(lines), &a, &b);
        assert_eq!(enumerate(lines, &list), right, "lines {lines}, A {a:?}, B {b:?}, words {words:?}");
        see(seen, if right.is_empty() { "pair: equal" } else { "pair: differs" });
        see(seen, if calls == 0 { "pair: no call" } else { "pair: after calls" });
        if wider {
            see(seen, if right.is_empty() { EQUAL_AFTER_PASSING } else { DIFFERS_AFTER_PASSING });
        }
        if with_solver && solved < SOLVED {
            let by_solver = solve(lines, &dimacs(&list));
            assert_eq!(by_solver, right, "the solver: lines {lines}, A {a:?}, B {b:?}, words {words:?}");
            solved += 1;
        }
        tried += 1;
    }
    println!("models: {tried} pairs by every assignment, {solved} of them by the solver, 0 mismatches");
}

/// Pairs with marks, also after calls on each of the two alone.
fn check_marked_pairs(random: &mut Random, with_solver: bool, seen: &mut Seen) {
    let (mut tried, mut solved) = (0, 0);
    while tried < MARKED_PAIRS {
        let lines = 1 + random.below(3);
        let header = random_marks(random, lines);
        let (a, b) = random_pair(random, lines);
        let (mut first, mut second) = (a.concat(), b.concat());
        let calls = [random.below(3), random.below(3)];
        any_calls(random, &mut first, lines, calls[0], seen);
        any_calls(random, &mut second, lines, calls[1], seen);
        let list = lists::pair(header, &first, &second);
        if list.variables > MOST_VARIABLES {
            see(seen, "too many variables, not tried");
            continue;
        }
        let right = differing(header, &a, &b);
        assert_eq!(enumerate(lines, &list), right, "{header:?}, A {a:?}, B {b:?}, {first:?}, {second:?}");
        see(seen, if right.is_empty() { "marked pair: equal" } else { "marked pair: differs" });
        see_marks(header, &a, &b, &right, seen);
        if first.len() + second.len() < 3 * (a.len() + b.len()) {
            see(seen, if right.is_empty() { "marked pair: equal, after calls" } else { "marked pair: differs, after calls" });
        }
        if with_solver && solved < MARKED_SOLVED {
            let text = dimacs(&list);
            assert_eq!(solve(lines, &text), right, "the solver: {header:?}, A {a:?}, B {b:?}, {first:?}, {second:?}");
            check_empty(lines, &text, seen);
            solved += 1;
        }
        tried += 1;
    }
    println!("models: {tried} pairs with marks by every assignment, {solved} of them by the solver, 0 mismatches");
}

/// How the marks bear on a pair.
fn see_marks(header: Header, a: &[Gate], b: &[Gate], right: &Spelled, seen: &mut Seen) {
    let Header { lines, constants, junk, .. } = header;
    let all = (1 << lines) - 1;
    let differ = |header| !differing(header, a, b).is_empty();
    let targeted = |mask| a.iter().chain(b).any(|gate| bit(mask, gate[2]));
    let kinds = [
        ("marked pair: constants alone", junk == 0),
        ("marked pair: junk lines alone", constants == 0),
        ("marked pair: all lines junk, other outputs", junk == all && differ(unmarked(lines))),
        ("marked pair: all lines constant", constants == all),
        ("marked pair: differs, all lines constant", constants == all && !right.is_empty()),
        ("marked pair: a line both constant and junk", constants & junk != 0),
        ("marked pair: a constant on a target", targeted(constants)),
        ("marked pair: a junk line on a target", targeted(junk)),
        ("marked pair: equal by the constants", right.is_empty() && differ(Header { constants: 0, values: 0, ..header })),
        ("marked pair: equal by the junk lines", right.is_empty() && differ(Header { junk: 0, ..header })),
    ];
    for (what, holds) in kinds {
        let count = seen.entry(what).or_default();
        *count += u64::from(holds);
    }
}

/// A text whose last clause has no literal is written with ` 0`. The solver has no model of it, nor where
/// the line is `0`, and has one where the clause is left out.
fn check_empty(lines: u64, text: &str, seen: &mut Seen) {
    let Some(others) = text.strip_suffix("\n 0\n") else { return };
    assert!(solve(lines, &format!("{others}\n0\n")).is_empty(), "the solver has a model of an empty clause, 0:\n{text}");
    assert!(!solve(lines, &format!("{others}\n")).is_empty(), "the solver has no model without the empty clause:\n{text}");
    see(seen, SOLVED_EMPTY);
}

// ---- long cascades

/// A gate on 64 lines that works inside one of 16 groups of four lines, with up to three controls.
fn grouped_gate(random: &mut Random) -> Gate {
    let group = 4 * random.below(16);
    let [positive, negative, target] = random_gate(random, 4);
    [positive << group, negative << group, target + group]
}

/// The lines of a gate.
fn lines_of(&[positive, negative, target]: &Gate) -> u64 {
    positive | negative | 1 << target
}

/// A cascade of grouped gates, and one that is equal: gates of different groups exchanged, and gates put in
/// twice.
fn long_pair(random: &mut Random) -> (Vec<Gate>, Vec<Gate>) {
    let a: Vec<Gate> = (0..LONG).map(|_| grouped_gate(random)).collect();
    let mut b = a.clone();
    for _ in 0..LONG {
        let at = random.index(b.len() - 1);
        if lines_of(&b[at]) & lines_of(&b[at + 1]) == 0 {
            b.swap(at, at + 1);
        }
    }
    for _ in 0..LONG / 10 {
        let at = random.index(b.len());
        let gate = grouped_gate(random);
        b.splice(at..at, [gate, gate]);
    }
    (a, b)
}

/// Long pairs, and the same with one gate changed: without marks by the list of their miter as it is made, with
/// marks by that of the two. A model of each pair that differs spells an input on which it does.
fn check_long(random: &mut Random) {
    let (mut equal, mut differ) = (0, 0);
    let marked = Header { lines: 64, constants: 1 << 9 | 1 << 30, values: 1 << 30, junk: 1 << 40 | 1 << 9 };
    for round in 0..2 * LONG_PAIRS {
        let header = if round % 2 == 0 { unmarked(64) } else { marked };
        let (a, mut b) = long_pair(random);
        let model = |b: &[Gate]| {
            let list = match round % 2 {
                0 => emit(64, &miter(64, &a, b)),
                _ => lists::pair(header, &a.concat(), &b.concat()),
            };
            solver::model(64, dimacs(&list).as_bytes())
        };
        assert_eq!(model(&b), None, "an equal pair of long cascades has a model");
        equal += 1;
        // another target of the same group
        let at = random.index(b.len());
        let [positive, negative, target] = b[at];
        let other = 4 * (target / 4) + (target + 1) % 4;
        b[at] = [positive & !(1 << other), negative & !(1 << other), other];
        let differs = |input: u64| (simulate(&a, input) ^ simulate(&b, input)) & !header.junk != 0;
        match model(&b) {
            Some(input) => {
                assert_eq!((input ^ header.values) & header.constants, 0, "a model breaks a constant");
                assert!(differs(input), "a model spells an input on which the two agree");
                differ += 1;
            }
            // the changed gate may bear on the junk lines alone
            None => {
                assert_eq!(round % 2, 1, "a pair that differs has no model");
                let permitted = |word: u64| word & !header.constants | header.values;
                assert!((0..1_000).all(|_| !differs(permitted(random.word()))), "a pair that differs has no model");
            }
        }
    }
    assert!(differ > LONG_PAIRS, "no long pair with marks and a gate changed had a model");
    println!("models: {equal} equal pairs of {LONG} gates and more, {differ} that differ, by the solver");
}

fn main() {
    let with_solver = solver::is_there();
    let seed = match std::env::args().nth(1) {
        Some(word) => word.parse().expect("the seed is a number below 2^64"),
        None => SEED,
    };
    let mut random = Random::new(seed);
    let mut seen = Seen::new();
    example_five();
    check_pairs(&mut random, with_solver, &mut seen);
    check_marked_pairs(&mut random, with_solver, &mut seen);
    if with_solver {
        check_long(&mut random);
    }
    for (what, count) in &seen {
        println!("{count:>9}  {what}");
    }
    for what in [
        "step: found",
        "step: none",
        "step: refused",
        "reduction: served",
        "reduction: refused",
        "pair: equal",
        "pair: differs",
        "pair: no call",
        "pair: after calls",
        "marked pair: equal",
        "marked pair: differs",
        "marked pair: equal, after calls",
        "marked pair: differs, after calls",
    ] {
        assert!(seen.contains_key(what), "never seen: {what}");
    }
    for (what, count) in &seen {
        assert!(*count > 0, "never seen: {what}");
    }
    for what in [EQUAL_AFTER_PASSING, DIFFERS_AFTER_PASSING] {
        let count = seen.get(what).copied().unwrap_or(0);
        assert!(count >= AFTER_PASSING, "seen {count} times: {what}");
    }
    if with_solver {
        assert!(seen.contains_key(SOLVED_EMPTY), "never seen: {SOLVED_EMPTY}");
    } else {
        println!("****************************************************************");
        println!("models: NO cryptominisat5: the solver was not asked");
        println!("****************************************************************");
    }
}
