//! cascade_reduce, and the law that it is the chain of the library's own steps.

use crate::calls::step;
use crate::capi::{self, ReduceAnswer};
use crate::cases::{self, Single};
use crate::classes::{self, Given};
use crate::expected;
use crate::harness::{compare, Buffer, Counts};
use crate::inputs::{self, Cascade, LONG};
use crate::random::Random;
use crate::reference::{self, MITER_GATES};

const RANDOM_CASES: u64 = 60_000;

const CLASSES: &[&str] = &[
    "reduced: nothing to do",
    "reduced: pairs alone",
    "reduced: merges alone",
    "reduced: pairs and merges",
    "reduced: all gates gone",
    "reduced: a chain of three steps or more",
    "reduced: with a step that only T-01's rule allows",
    "reduced: 2,048 gates to none",
    "reduced: as many gates as the limit, the first two and the last two gone",
    "the same with another n",
];

pub fn section(random: &mut Random) -> Counts {
    let mut counts =
        classes::single_counts("cascade_reduce", Given::Lines, &[], &["words"], CLASSES);
    let mut check = |case: Single| check(&case, &mut counts);
    cases::each_edge(random, MITER_GATES, &mut check);
    for lines in [1, 4, 16, 64] {
        let mut mirrored = inputs::good_cascade(random, lines, LONG / 2);
        let back: Vec<u64> = mirrored.words.rchunks(3).flatten().copied().collect();
        mirrored.words.extend(back);
        check(Single::new(mirrored, false));
    }
    check(Single::new(inputs::few_matches(random, [true, true]), false));
    cases::each_drawn(random, RANDOM_CASES, inputs::any_or_matching, &mut check);
    counts
}

fn call(lines: u64, words: &mut Buffer<u64>) -> ReduceAnswer {
    unsafe { capi::cascade_reduce(lines, words.pointer(), words.len()) }
}

fn check(case: &Single, counts: &mut Counts) {
    let cascade = &case.cascade;
    let mut wanted = cascade.words.clone();
    let answer = reference::reduce(cascade.lines, &mut wanted);
    let answer = expected::reduce_answer(wanted.len(), answer);
    case.check("cascade_reduce", call, answer, &wanted);
    let (given, number) = (Given::Lines, answer.number);
    classes::count_single(counts, case, given, MITER_GATES, &[], number);
    if answer.number == 0 {
        let wider = check_chain(cascade, &wanted, answer);
        counts.add_if(wider, "reduced: with a step that only T-01's rule allows");
        cases::check_other_lines(cascade, &[64], call, answer, &wanted, counts);
        count(cascade, answer, counts);
    }
}

/// Steps of the library, each on the gates that then stand and with any n that serves. Tells whether
/// 01's own rule forbids one of them.
fn check_chain(case: &Cascade, after: &[u64], answer: ReduceAnswer) -> bool {
    let mut words = case.words.clone();
    let (mut pairs, mut merges, mut wider) = (0, 0, false);
    loop {
        let lines = if pairs % 2 == 0 { case.lines } else { 64 };
        let mut buffer = Buffer::new(&words);
        let step = step::call(lines, &mut buffer);
        wider |= step::only_wider(&reference::gates_of(&words), step);
        words = buffer.contents()[..3 * step.gates as usize].to_vec();
        if step.found == 0 {
            break;
        }
        if step.kind == 0 {
            pairs += 1;
        } else {
            merges += 1;
        }
    }
    let gates = (words.len() / 3) as u64;
    let before = (case.words.len() / 3) as u64;
    compare(
        case,
        "chain of steps: gates, pairs, merges",
        (gates, pairs, merges),
        (answer.gates, answer.pairs, answer.merges),
    );
    compare(
        case,
        "chain of steps: words",
        &words[..],
        &after[..words.len()],
    );
    compare(
        case,
        "gates before = gates after + 2p + m",
        before,
        gates + 2 * pairs + merges,
    );
    wider
}

fn count(case: &Cascade, answer: ReduceAnswer, counts: &mut Counts) {
    let ReduceAnswer {
        gates,
        pairs,
        merges,
        ..
    } = answer;
    counts.add_if(pairs + merges == 0, "reduced: nothing to do");
    counts.add_if(pairs > 0 && merges == 0, "reduced: pairs alone");
    counts.add_if(pairs == 0 && merges > 0, "reduced: merges alone");
    counts.add_if(pairs > 0 && merges > 0, "reduced: pairs and merges");
    counts.add_if(gates == 0 && pairs > 0, "reduced: all gates gone");
    counts.add_if(
        pairs + merges > 2,
        "reduced: a chain of three steps or more",
    );
    counts.add_if(
        gates == 0 && case.words.len() == 3 * LONG,
        "reduced: 2,048 gates to none",
    );
    counts.add_if(
        pairs == 2 && merges == 0 && case.words.len() == 3 * MITER_GATES,
        "reduced: as many gates as the limit, the first two and the last two gone",
    );
}
