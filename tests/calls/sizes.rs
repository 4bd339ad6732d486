//! cascade_sizes.

use crate::capi::{self, SizesAnswer};
use crate::cases::{self, Single};
use crate::classes::{self, Given};
use crate::expected;
use crate::harness::{Buffer, Counts};
use crate::inputs::{self, Cascade};
use crate::random::Random;
use crate::reference::{self, MITER_GATES};

const RANDOM_CASES: u64 = 100_000;
/// Gates with each number of controls and each polarity.
const GATES_A_COUNT: usize = 8;

const CLASSES: &[&str] = &[
    "served: no line targeted",
    "served: every line targeted",
    "served: n = 64, every line targeted",
];

pub fn section(random: &mut Random) -> Counts {
    let mut counts =
        classes::single_counts("cascade_sizes", Given::Lines, &[], &["words"], CLASSES);
    counts.require(classes::TARGETS);
    for controls in 0..64 {
        for polarity in 0..3 {
            counts.require(&[&with_controls(controls, polarity)]);
        }
    }
    let mut check = |case: Single| check(&case, &mut counts);
    cases::each_edge(random, MITER_GATES, &mut check);
    let mut gates = |words| check(Single::new(inputs::from_zero(64, words), false));
    inputs::each_control_count(&mut |controls, positive| {
        for _ in 0..GATES_A_COUNT {
            gates(inputs::with_controls(random, controls, positive).to_vec());
        }
    });
    gates(inputs::longest(random));
    gates((0..64).flat_map(|target| [0, 0, target]).collect());
    let draw = |random: &mut Random| inputs::cascade(random, MITER_GATES);
    cases::each_drawn(random, RANDOM_CASES, draw, &mut check);
    counts
}

fn call(lines: u64, words: &mut Buffer<u64>) -> SizesAnswer {
    unsafe { capi::cascade_sizes(lines, words.pointer(), words.len()) }
}

fn check(case: &Single, counts: &mut Counts) {
    let Cascade { lines, words, .. } = &case.cascade;
    let answer = expected::sizes_answer(reference::sizes(*lines, words));
    case.check("cascade_sizes", call, answer, words);
    let (given, number) = (Given::Lines, answer.number);
    classes::count_single(counts, case, given, MITER_GATES, &[], number);
    if answer.number == 0 {
        count_gates(*lines, words, counts);
    }
}

fn count_gates(lines: u64, words: &[u64], counts: &mut Counts) {
    let gates = reference::gates_of(words);
    for gate in &gates {
        let (positive, negative) = (gate.positive.count_ones(), gate.negative.count_ones());
        let polarity = match (positive, negative) {
            (_, 0) => 0,
            (0, _) => 1,
            _ => 2,
        };
        counts.add(&with_controls(positive + negative, polarity));
    }
    let targets = classes::count_targets(counts, lines, &gates);
    let every = targets.iter().all(|times| *times > 0);
    counts.add_if(gates.is_empty(), "served: no line targeted");
    counts.add_if(every, "served: every line targeted");
    counts.add_if(every && lines == 64, "served: n = 64, every line targeted");
}

/// A class of gates: no control and one control have fewer polarities.
fn with_controls(controls: u32, polarity: usize) -> String {
    let polarity = match controls {
        0 => "no polarity",
        1 => ["positive", "negative", "positive"][polarity],
        _ => ["positive", "negative", "both"][polarity],
    };
    format!("served: a gate with {controls} controls, {polarity}")
}
