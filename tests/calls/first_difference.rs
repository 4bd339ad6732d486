//! cascade_first_difference.

use crate::capi;
use crate::cases::{Lent, Pair};
use crate::classes::{self, Given};
use crate::expected;
use crate::harness::Counts;
use crate::inputs::{self, Cascade};
use crate::random::Random;
use crate::reference::{self, Header, CASCADE_GATES, SWEEP_LINES};

const RANDOM_CASES: u64 = 30_000;

const CLASSES: &[&str] = &[
    "served: none",
    "served: none, other gates",
    "served: none, n = 16",
    "served: state 0",
    "served: a state between",
    "served: state 2^n - 2, the last that can be first",
    "served: n = 1",
    "served: n = 16, state 2^16 - 2",
    "served: both empty",
    "served: both have as many gates as the limit",
    "served: none, a state that breaks a constant differs",
    "served: none, a junk line differs",
    "served: found, a lower state that breaks a constant differs",
    "served: found, a junk line differs on a lower state",
    "13: n = 17",
    "13: n = 64",
];

pub fn section(random: &mut Random) -> Counts {
    let name = "cascade_first_difference";
    let given = Given::Header;
    let mut counts = classes::pair_counts(name, given, &[13], &["a", "b"], CLASSES);
    let mut check = |case: Pair| check(&case, &mut counts);
    inputs::each_faulty_marked_pair(random, &mut |random, a, b| check(narrow(random, a, b)));
    inputs::each_mark(&mut |cascade| check(narrow(random, cascade.clone(), cascade)));
    for lines in [1, 2, 15, 16, 17, 18, 32, 63, 64] {
        for gates in [0, 3] {
            let a = inputs::good_cascade(random, lines, gates);
            check(Pair::new(a.clone(), a.clone(), true));
            check(Pair::new(a.clone(), late(&a), true));
        }
    }
    let (a, b) = inputs::longest_pair(random, 2);
    check(Pair::new(a.clone(), b, false));
    check(Pair::new(a.clone(), a, false));
    for _ in 0..RANDOM_CASES {
        let (a, mut b) = inputs::marked_pair(random);
        if random.one_in(8) && (1..=64).contains(&a.lines) {
            b = late(&a);
        }
        check(narrow(random, a, b));
    }
    counts
}

/// The cascade with a gate at its start that fires on the last two states alone.
fn late(a: &Cascade) -> Cascade {
    let mut b = a.clone();
    let all_but_0 = inputs::all_lines(a.lines) & !1;
    b.words.splice(0..0, [all_but_0, 0, 0]);
    b
}

/// The two, on fewer lines where a sweep of all states would take long.
fn narrow(random: &mut Random, mut a: Cascade, mut b: Cascade) -> Pair {
    let words = 8 + (a.words.len() + b.words.len()) as u64;
    let (ha, hb) = (a.header(), b.header());
    let served = reference::test_headed_pair(ha, &a.words, hb, &b.words).is_ok();
    if served && a.lines <= SWEEP_LINES && words << a.lines > 1 << 15 {
        let lines = 1 + a.lines % 8;
        let marks = inputs::good_marks(random, lines);
        a = inputs::good_cascade(random, lines, 6).with_marks(marks);
        b = a.clone();
        b.words.extend([0; 6]);
    }
    Pair::new(a, b, random.one_in(2))
}

fn check(case: &Pair, counts: &mut Counts) {
    let (ha, hb) = (case.a.header(), case.b.header());
    let library = |Lent { a, b, .. }: &mut Lent| {
        let (a_len, b_len) = (a.len(), b.len());
        let (ha, hb) = (expected::header(ha), expected::header(hb));
        unsafe { capi::cascade_first_difference(ha, a.pointer(), a_len, hb, b.pointer(), b_len) }
    };
    let answer = reference::first_difference(ha, &case.a.words, hb, &case.b.words);
    let reference = expected::state_answer(answer);
    case.check("cascade_first_difference", library, reference, &[]);
    let further = [(13, reference::too_wide(ha.lines))];
    classes::count_pair(counts, case, Given::Header, &further);
    count(case, answer, counts);
    if let Ok(first) = answer {
        count_left_out(case, first, counts);
    }
}

/// Counts what the marks leave out, by the first difference without constants and without junk lines.
fn count_left_out(Pair { a, b, .. }: &Pair, first: Option<u64>, counts: &mut Counts) {
    let header = a.header();
    let first_with = |header| {
        let answer = reference::first_difference(header, &a.words, header, &b.words);
        answer.expect("a sweep that is served")
    };
    let untied = first_with(Header {
        constants: 0,
        values: 0,
        ..header
    });
    let without_junk = first_with(Header { junk: 0, ..header });
    match first {
        None => {
            let broken = "served: none, a state that breaks a constant differs";
            counts.add_if(untied.is_some(), broken);
            counts.add_if(without_junk.is_some(), "served: none, a junk line differs");
        }
        Some(_) => {
            let broken = "served: found, a lower state that breaks a constant differs";
            counts.add_if(untied < first, broken);
            let junk = "served: found, a junk line differs on a lower state";
            counts.add_if(without_junk < first, junk);
        }
    }
}

fn count(
    Pair { a, b, .. }: &Pair,
    answer: Result<Option<u64>, reference::Refusal>,
    counts: &mut Counts,
) {
    let n = a.lines;
    match answer {
        Ok(None) => {
            counts.add("served: none");
            counts.add_if(a.words != b.words, "served: none, other gates");
            counts.add_if(n == 16, "served: none, n = 16");
        }
        Ok(Some(state)) => {
            let last = inputs::all_lines(n);
            counts.add_if(state == 0, "served: state 0");
            counts.add_if(0 < state && state < last - 1, "served: a state between");
            counts.add_if(
                state == last - 1,
                "served: state 2^n - 2, the last that can be first",
            );
        }
        Err(refusal) => {
            counts.add_if(refusal.number == 13 && n == 17, "13: n = 17");
            counts.add_if(refusal.number == 13 && n == 64, "13: n = 64");
        }
    }
    if let Ok(found) = answer {
        counts.add_if(n == 1, "served: n = 1");
        counts.add_if(
            n == 16 && found == Some((1 << 16) - 2),
            "served: n = 16, state 2^16 - 2",
        );
        counts.add_if(
            a.words.is_empty() && b.words.is_empty(),
            "served: both empty",
        );
        counts.add_if(
            a.words.len() + b.words.len() == 6 * CASCADE_GATES,
            "served: both have as many gates as the limit",
        );
    }
}
