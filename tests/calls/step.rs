//! cascade_step, and the laws that a step keeps the run and does not depend on the n given, and that
//! gates pass exactly when the two orders give the same on every state.

use crate::capi::{self, StepAnswer};
use crate::cases::{self, Single};
use crate::classes::{self, Given};
use crate::expected;
use crate::harness::{compare, Buffer, Counts};
use crate::inputs::{self, Cascade};
use crate::random::Random;
use crate::reference::{self, Gate, Match, MITER_GATES};

const RANDOM_CASES: u64 = 100_000;

const TURN_WIDER: &str = "found: turn, only by T-01's rule";

const CLASSES: &[&str] = &[
    "found: pair",
    "found: drop",
    "found: turn, the first gate is longer",
    "found: turn, the second gate is longer",
    "found: neighbours",
    "found: gates passed",
    "found: not from the first gate",
    "found: gates after it move",
    "found: pair, only by T-01's rule",
    "found: drop, only by T-01's rule",
    TURN_WIDER,
    "the two orders are alike by 01's rule",
    "the two orders are alike only by T-01's rule",
    "the two orders differ",
    "blocked: two gates match behind one that may not be passed",
    "none: gates of one target that do not match",
    "none: no gates",
    "none: one gate",
    "the same with another n",
    "as many gates as the limit: the first two match",
    "as many gates as the limit: only the last two match",
    "as many gates as the limit: none match",
];

pub fn section(random: &mut Random) -> Counts {
    let mut counts = classes::single_counts("cascade_step", Given::Lines, &[], &["words"], CLASSES);
    let mut check = |case: Single| check(&case, &mut counts);
    cases::each_edge(random, MITER_GATES, &mut check);
    each_two_gates(&mut check);
    for twice in [[true, false], [false, true], [false, false]] {
        check(Single::new(inputs::few_matches(random, twice), false));
    }
    cases::each_drawn(random, RANDOM_CASES, inputs::any_or_matching, &mut check);
    for lines in [3, 4] {
        check_orders(lines, &mut counts);
    }
    counts
}

/// Every two gates on three lines, valid or not, alone and with a gate on line 1 between.
fn each_two_gates(check: &mut impl FnMut(Single)) {
    let mut gates = Vec::new();
    for positive in 0..8 {
        for negative in 0..8 {
            gates.extend([0, 1, 2].map(|target| [positive, negative, target]));
        }
    }
    for first in &gates {
        for second in &gates {
            for between in [vec![], vec![[0, 0, 1]]] {
                let words = [vec![*first], between, vec![*second]].concat().concat();
                let state = 5;
                let cascade = inputs::from_zero(3, words);
                check(Single::new(Cascade { state, ..cascade }, false));
            }
        }
    }
}

/// Every two gates g and h on the lines, as g h g. Gates may pass exactly when the two orders give the
/// same on every state. Where g and h do not match, only the first and the third gate do, so that the
/// step takes out both or finds nothing.
fn check_orders(lines: u64, counts: &mut Counts) {
    let gates = inputs::every_gate(lines);
    for g in &gates {
        for h in &gates {
            let words = [g, h, g].map(|gate| [gate.positive, gate.negative, gate.target]);
            let case = Single::new(inputs::from_zero(lines, words.concat()), false);
            check(&case, counts);
            let alike = (0..1 << lines).all(|s| h.apply(g.apply(s)) == g.apply(h.apply(s)));
            let passes = reference::may_pass(*g, *h);
            compare(&case, "the reference passes where the orders are alike", passes, alike);
            if reference::matched(*g, *h).is_none() {
                let answer = call(lines, &mut Buffer::new(&case.cascade.words));
                let told = [answer.found, answer.i, answer.j, answer.kind, answer.gates];
                let wanted = if alike { [1, 0, 2, 0, 1] } else { [0, 0, 0, 0, 3] };
                compare(&case, "a step passes where the orders are alike", told, wanted);
            }
            counts.add(match (alike, reference::targets_uncontrolled(*g, *h)) {
                (true, true) => "the two orders are alike by 01's rule",
                (true, false) => "the two orders are alike only by T-01's rule",
                (false, _) => "the two orders differ",
            });
        }
    }
}

pub fn call(lines: u64, words: &mut Buffer<u64>) -> StepAnswer {
    unsafe { capi::cascade_step(lines, words.pointer(), words.len()) }
}

fn check(case: &Single, counts: &mut Counts) {
    let cascade = &case.cascade;
    let mut wanted = cascade.words.clone();
    let answer = reference::step(cascade.lines, &mut wanted);
    let answer = expected::step_answer(wanted.len(), answer);
    case.check("cascade_step", call, answer, &wanted);
    let (given, number) = (Given::Lines, answer.number);
    classes::count_single(counts, case, given, MITER_GATES, &[], number);
    if answer.number == 0 {
        check_run(cascade, &wanted, answer);
        let others = [1, 3, cascade.lines + 1, 64];
        cases::check_other_lines(cascade, &others, call, answer, &wanted, counts);
        count(&reference::gates_of(&cascade.words), answer, counts);
    }
}

fn run_of(words: &[u64], state: u64) -> u64 {
    let gates = reference::gates_of(words);
    gates.iter().fold(state, |state, gate| gate.apply(state))
}

/// The gates that then stand give the same output.
fn check_run(case: &Cascade, after: &[u64], answer: StepAnswer) {
    let gates = answer.gates as usize;
    for state in [0, inputs::all_lines(case.lines), case.state] {
        let library = run_of(&after[..3 * gates], state);
        compare(case, "the run is kept", library, run_of(&case.words, state));
    }
}

fn count(gates: &[Gate], answer: StepAnswer, counts: &mut Counts) {
    if answer.found == 0 {
        counts.add_if(gates.is_empty(), "none: no gates");
        counts.add_if(gates.len() == 1, "none: one gate");
        let most = gates.len() == MITER_GATES;
        counts.add_if(most, "as many gates as the limit: none match");
        if gates.len() == 2 {
            counts.add_if(
                gates[0].target == gates[1].target,
                "none: gates of one target that do not match",
            );
        }
    } else {
        count_found(gates, answer, counts);
    }
    if gates.len() < 20 {
        counts.add_if(
            blocked(gates),
            "blocked: two gates match behind one that may not be passed",
        );
    }
}

fn count_found(gates: &[Gate], answer: StepAnswer, counts: &mut Counts) {
    let (i, j) = (answer.i as usize, answer.j as usize);
    let controls = |g: Gate| (0..64).filter(|k| g.control(*k).is_some()).count();
    let first_longer = controls(gates[i]) > controls(gates[j]);
    let (found, wider) = match reference::matched(gates[i], gates[j]).map(|found| found.0) {
        Some(Match::Pair) => ("found: pair", "found: pair, only by T-01's rule"),
        Some(Match::Drop) => ("found: drop", "found: drop, only by T-01's rule"),
        _ if first_longer => ("found: turn, the first gate is longer", TURN_WIDER),
        _ => ("found: turn, the second gate is longer", TURN_WIDER),
    };
    counts.add(found);
    counts.add_if(only_wider(gates, answer), wider);
    counts.add_if(j == i + 1, "found: neighbours");
    counts.add_if(j > i + 1, "found: gates passed");
    counts.add_if(i > 0, "found: not from the first gate");
    counts.add_if(j + 1 < gates.len(), "found: gates after it move");
    if gates.len() == MITER_GATES {
        let first = "as many gates as the limit: the first two match";
        counts.add_if((i, j) == (0, 1), first);
        let last = "as many gates as the limit: only the last two match";
        counts.add_if((i, j) == (MITER_GATES - 2, MITER_GATES - 1), last);
    }
}

/// Whether 01's own rule forbids the step that was found: gate i passes one that it may pass only by
/// T-01.
pub fn only_wider(gates: &[Gate], answer: StepAnswer) -> bool {
    let (i, j) = (answer.i as usize, answer.j as usize);
    (i + 1..j).any(|k| !reference::targets_uncontrolled(gates[i], gates[k]))
}

/// Whether two gates match of which the first may not pass one between.
fn blocked(gates: &[Gate]) -> bool {
    (0..gates.len()).any(|i| {
        (i + 1..gates.len()).any(|j| {
            reference::matched(gates[i], gates[j]).is_some()
                && (i + 1..j).any(|k| !reference::may_pass(gates[i], gates[k]))
        })
    })
}
