//! cascade_miter, and the law that the miter is the identity where the two cascades agree.

use crate::calls::run;
use crate::capi;
use crate::cases::{self, Lent, Pair};
use crate::classes::{self, Given};
use crate::expected;
use crate::harness::{compare, Buffer, Counts};
use crate::inputs::{self, Cascade};
use crate::random::Random;
use crate::reference::{self, CASCADE_GATES, MITER_GATES};

const RANDOM_CASES: u64 = 100_000;

const CLASSES: &[&str] = &[
    "served: as many gates as the limit",
    "served: both empty",
    "served: the first empty",
    "served: the second empty",
    "served: B is no palindrome",
    "served: the two agree on the state",
    "served: the two differ on the state",
];

pub fn section(random: &mut Random) -> Counts {
    let buffers = &["a", "b", "out"];
    let (name, given) = ("cascade_miter", Given::Lines);
    let mut counts = classes::pair_counts(name, given, &[10], buffers, CLASSES);
    let mut check = |case: Pair| check(&case, &mut counts);
    inputs::each_faulty_pair(random, &mut |random, a, b| {
        cases::each_pair_length(random, &a, &b, needed(&a, &b), &mut check);
    });
    let most = CASCADE_GATES;
    for (first, second) in [(most, most), (most, 0), (0, most), (0, 0), (1, most - 1)] {
        let a = inputs::good_cascade(random, 64, first);
        let b = inputs::good_cascade(random, 64, second);
        cases::each_pair_length(random, &a, &b, needed(&a, &b), &mut check);
    }
    cases::each_drawn_pair(random, RANDOM_CASES, inputs::pair, needed, &mut check);
    counts
}

fn needed(a: &Cascade, b: &Cascade) -> usize {
    a.words.len() + b.words.len()
}

fn check(case: &Pair, counts: &mut Counts) {
    let (na, nb) = (case.a.lines, case.b.lines);
    let library = |Lent { a, b, out, .. }: &mut Lent| {
        let (a_len, b_len, out_len) = (a.len(), b.len(), out.len());
        let (a, b, out) = (a.pointer(), b.pointer(), out.pointer());
        unsafe { capi::cascade_miter(na, a, a_len, nb, b, b_len, out, out_len) }
    };
    let mut wanted = case.out.clone();
    let answer = reference::miter(na, &case.a.words, nb, &case.b.words, &mut wanted);
    let answer = expected::count_answer(answer);
    let out = case.check("cascade_miter", library, answer, &wanted);
    count(case, answer.number, counts);
    if answer.number == 0 && answer.gates <= CASCADE_GATES as u64 {
        let agree = check_identity(case, &out.contents()[..3 * answer.gates as usize]);
        counts.add_if(agree, "served: the two agree on the state");
        counts.add_if(!agree, "served: the two differ on the state");
    }
}

/// Whether the two agree on the state, which the library's own miter has to tell by its run.
fn check_identity(case: &Pair, miter: &[u64]) -> bool {
    let lines = case.a.lines;
    let state = case.a.state & inputs::all_lines(lines);
    let run_of = |words: &[u64]| run::call(lines, &mut Buffer::new(words), state).state;
    let agree = run_of(&case.a.words) == run_of(&case.b.words);
    compare(
        case,
        "identity where the two agree",
        run_of(miter) == state,
        agree,
    );
    agree
}

fn count(case: &Pair, number: u64, counts: &mut Counts) {
    let Pair { a, b, out, .. } = case;
    let needed = needed(a, b);
    let further = [(10, reference::short_buffer(out, needed))];
    classes::count_pair(counts, case, Given::Lines, &further);
    classes::count_out(counts, out, case.dangling, needed, number);
    if number == 0 {
        let reversed: Vec<_> = reference::gates_of(&b.words).into_iter().rev().collect();
        counts.add_if(needed == 3 * MITER_GATES, "served: as many gates as the limit");
        counts.add_if(needed == 0, "served: both empty");
        counts.add_if(a.words.is_empty() && needed > 0, "served: the first empty");
        counts.add_if(b.words.is_empty() && needed > 0, "served: the second empty");
        counts.add_if(
            reversed != reference::gates_of(&b.words),
            "served: B is no palindrome",
        );
    }
}
