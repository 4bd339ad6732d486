//! cascade_fewer_gates.

use crate::capi;
use crate::cases::{Lent, Pair};
use crate::classes::{self, Given};
use crate::expected;
use crate::harness::Counts;
use crate::inputs;
use crate::random::Random;
use crate::reference::{self, CASCADE_GATES};

const RANDOM_CASES: u64 = 60_000;

const CLASSES: &[&str] = &[
    "served: the first has fewer",
    "served: the first has one less",
    "served: the second has fewer",
    "served: the second has one less",
    "served: a tie",
    "served: a tie, other gates",
    "served: both empty",
    "served: only the first empty",
    "served: only the second empty",
    "served: both have as many as the limit",
    "served: n = 64",
];

pub fn section(random: &mut Random) -> Counts {
    let (name, given) = ("cascade_fewer_gates", Given::Lines);
    let mut counts = classes::pair_counts(name, given, &[], &["a", "b"], CLASSES);
    let mut check = |a, b, dangling| check(&Pair::new(a, b, dangling), &mut counts);
    inputs::each_faulty_pair(random, &mut |random, a, b| check(a, b, random.one_in(2)));
    let numbers = [0, 1, 2, CASCADE_GATES - 1, CASCADE_GATES];
    for first in numbers {
        for second in numbers {
            for dangling in [false, true] {
                let a = inputs::good_cascade(random, 64, first);
                let b = inputs::good_cascade(random, 64, second);
                check(a, b, dangling);
            }
        }
    }
    for _ in 0..RANDOM_CASES {
        let (a, b) = inputs::pair(random);
        check(a, b, random.one_in(2));
    }
    counts
}

fn check(case: &Pair, counts: &mut Counts) {
    let (na, nb) = (case.a.lines, case.b.lines);
    let library = |Lent { a, b, .. }: &mut Lent| unsafe {
        capi::cascade_fewer_gates(na, a.pointer(), a.len(), nb, b.pointer(), b.len())
    };
    let answer = reference::pick(na, &case.a.words, nb, &case.b.words);
    let reference = expected::fewer_answer(answer);
    case.check("cascade_fewer_gates", library, reference, &[]);
    classes::count_pair(counts, case, Given::Lines, &[]);
    if answer.is_ok() {
        count(case, counts);
    }
}

fn count(Pair { a, b, .. }: &Pair, counts: &mut Counts) {
    let (first, second) = (a.words.len() / 3, b.words.len() / 3);
    counts.add_if(first < second, "served: the first has fewer");
    counts.add_if(first + 1 == second, "served: the first has one less");
    counts.add_if(second < first, "served: the second has fewer");
    counts.add_if(second + 1 == first, "served: the second has one less");
    counts.add_if(first == second, "served: a tie");
    counts.add_if(
        first == second && a.words != b.words,
        "served: a tie, other gates",
    );
    counts.add_if(first + second == 0, "served: both empty");
    counts.add_if(first == 0 && second > 0, "served: only the first empty");
    counts.add_if(second == 0 && first > 0, "served: only the second empty");
    let most = first + second == 2 * CASCADE_GATES;
    counts.add_if(most, "served: both have as many as the limit");
    counts.add_if(a.lines == 64, "served: n = 64");
}
