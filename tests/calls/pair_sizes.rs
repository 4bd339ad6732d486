//! cascade_pair_sizes.

use crate::capi;
use crate::cases::{Lent, Pair};
use crate::classes::{self, Given};
use crate::expected;
use crate::harness::Counts;
use crate::inputs;
use crate::random::Random;
use crate::reference;

const RANDOM_CASES: u64 = 60_000;

pub fn section(random: &mut Random) -> Counts {
    let (name, given) = ("cascade_pair_sizes", Given::Header);
    let mut counts = classes::pair_counts(name, given, &[], &["a", "b"], &[]);
    classes::require_pair_list(&mut counts);
    let mut check = |case: Pair| check(&case, &mut counts);
    inputs::each_pair_for_clauses(random, &mut |random, a, b| {
        check(Pair::new(a, b, random.one_in(2)));
    });
    for _ in 0..RANDOM_CASES {
        let (a, b) = inputs::marked_pair(random);
        check(Pair::new(a, b, random.one_in(2)));
    }
    counts
}

fn check(case: &Pair, counts: &mut Counts) {
    let (ha, hb) = (case.a.header(), case.b.header());
    let library = |Lent { a, b, .. }: &mut Lent| {
        let (a_len, b_len) = (a.len(), b.len());
        let (ha, hb) = (expected::header(ha), expected::header(hb));
        unsafe { capi::cascade_pair_sizes(ha, a.pointer(), a_len, hb, b.pointer(), b_len) }
    };
    let answer = reference::pair_sizes(ha, &case.a.words, hb, &case.b.words);
    let reference = expected::sizes_answer(answer);
    let number = reference.number;
    case.check("cascade_pair_sizes", library, reference, &[]);
    classes::count_pair(counts, case, Given::Header, &[]);
    if number == 0 {
        classes::count_pair_list(counts, &case.a, &case.b);
    }
}
