//! cascade_emit.

use crate::capi::{self, SizesAnswer};
use crate::cases::{self, Single};
use crate::classes::{self, Given};
use crate::expected;
use crate::harness::{Buffer, Counts};
use crate::inputs::{self, Cascade};
use crate::random::Random;
use crate::reference::{self, MITER_GATES};

const RANDOM_CASES: u64 = 20_000;

const CLASSES: &[&str] = &[
    "served: 01's printed example",
    "served: two gates or more",
    "served: a line with no gate, and one with a gate",
];

pub fn section(random: &mut Random) -> Counts {
    let buffers = &["words", "out"];
    let (name, given) = ("cascade_emit", Given::Lines);
    let mut counts = classes::single_counts(name, given, &[10], buffers, CLASSES);
    counts.require(classes::TARGETS);
    for controls in 0..64 {
        counts.require(&[&with_controls(controls)]);
    }
    let mut check = |case: Single<i32>| check(&case, &mut counts);
    let dangling = |random: &mut Random| random.one_in(2);
    let mut each_length = |random: &mut Random, lines, words| {
        let cascade = inputs::from_zero(lines, words);
        cases::each_length(random, &cascade, needed(&cascade), dangling, &mut check);
    };
    each_length(random, 2, vec![1, 0, 1]);
    // a first gate makes a line's current variable another than its input
    inputs::each_control_count(&mut |controls, positive| {
        let before = [0, 0, random.below(64)];
        let gate = inputs::with_controls(random, controls, positive);
        each_length(random, 64, [before, gate].concat());
    });
    let longest = inputs::longest(random);
    each_length(random, 64, longest);
    cases::each_with_out(
        random,
        MITER_GATES,
        RANDOM_CASES,
        |random| inputs::cascade(random, MITER_GATES),
        needed,
        dangling,
        &mut check,
    );
    counts
}

/// How many words the clause list has; more than enough for words that are no cascade, so that a
/// call that writes before its tests shows.
fn needed(cascade: &Cascade) -> usize {
    match reference::sizes(cascade.lines, &cascade.words) {
        Ok(sizes) => sizes.words as usize,
        Err(_) => 100 + cascade.words.len(),
    }
}

pub fn call(lines: u64, words: &mut Buffer<u64>, out: &mut Buffer<i32>) -> SizesAnswer {
    let (words_len, out_len) = (words.len(), out.len());
    unsafe { capi::cascade_emit(lines, words.pointer(), words_len, out.pointer(), out_len) }
}

/// An empty buffer is shorter than every clause list, that of words which are no cascade included.
fn check(case: &Single<i32>, counts: &mut Counts) {
    let Cascade { lines, words, .. } = &case.cascade;
    let mut wanted = case.out.clone();
    let answer = expected::sizes_answer(reference::emit(*lines, words, &mut wanted));
    case.check_out("cascade_emit", call, answer, &wanted);
    let number = answer.number;
    let further = [(10, number == 10 || case.out.is_empty())];
    let given = Given::Lines;
    classes::count_single(counts, case, given, MITER_GATES, &further, number);
    let needed = needed(&case.cascade);
    classes::count_out(counts, &case.out, case.dangling, needed, number);
    if number == 0 {
        count_gates(*lines, words, counts);
    }
}

fn count_gates(lines: u64, words: &[u64], counts: &mut Counts) {
    let gates = reference::gates_of(words);
    for gate in &gates {
        counts.add(&with_controls((gate.positive | gate.negative).count_ones()));
    }
    let targets = classes::count_targets(counts, lines, &gates);
    let none = targets.contains(&0);
    let some = targets.iter().any(|times| *times > 0);
    counts.add_if(
        lines == 2 && words == [1, 0, 1],
        "served: 01's printed example",
    );
    counts.add_if(gates.len() >= 2, "served: two gates or more");
    counts.add_if(
        none && some,
        "served: a line with no gate, and one with a gate",
    );
}

fn with_controls(controls: u32) -> String {
    format!("served: a gate with {controls} controls")
}
