//! cascade_differs.

use crate::capi;
use crate::cases::{Lent, Pair};
use crate::classes::{self, Given};
use crate::expected;
use crate::harness::Counts;
use crate::inputs::{self, Cascade};
use crate::random::Random;
use crate::reference::{self, Header, CASCADE_GATES};

const RANDOM_CASES: u64 = 60_000;

const CLASSES: &[&str] = &[
    "served: differ",
    "served: agree",
    "served: agree, other gates",
    "served: n = 64",
    "served: n = 64, state 2^64 - 1",
    "served: state 2^n - 1",
    "served: both empty",
    "served: both have as many gates as the limit",
    "served: differ, with marks",
    "served: agree, a junk line differs",
    "9: state 2^n",
    "9: only a constant of value 0 is broken",
    "9: only a constant of value 1 is broken",
];

/// The state is that of the first cascade.
pub fn section(random: &mut Random) -> Counts {
    let (name, given) = ("cascade_differs", Given::Header);
    let mut counts = classes::pair_counts(name, given, &[9], &["a", "b"], CLASSES);
    let mut check = |case: Pair| check(&case, &mut counts);
    inputs::each_faulty_marked_pair(random, &mut |random, a, b| {
        let edges = inputs::edge_states(a.lines);
        for state in edges.into_iter().rev().take(4).chain([a.state]) {
            let (a, b) = (a.clone(), b.clone());
            check(Pair::new(Cascade { state, ..a }, b, random.one_in(2)));
        }
    });
    inputs::each_mark(&mut |a| check(Pair::new(a.clone(), a, true)));
    for lines in [2, 64] {
        let (a, b) = inputs::longest_pair(random, lines);
        check(Pair::new(a.clone(), b, false));
        check(Pair::new(a.clone(), a, false));
    }
    for _ in 0..RANDOM_CASES {
        let (a, b) = inputs::marked_pair(random);
        let state = inputs::state(random, &a);
        check(Pair::new(Cascade { state, ..a }, b, random.one_in(2)));
    }
    counts
}

fn check(case: &Pair, counts: &mut Counts) {
    let (ha, hb, state) = (case.a.header(), case.b.header(), case.a.state);
    let library = |Lent { a, b, .. }: &mut Lent| {
        let (a_len, b_len) = (a.len(), b.len());
        let (ha, hb) = (expected::header(ha), expected::header(hb));
        unsafe { capi::cascade_differs(ha, a.pointer(), a_len, hb, b.pointer(), b_len, state) }
    };
    let answer = reference::differs(ha, &case.a.words, hb, &case.b.words, state);
    let reference = expected::differs_answer(answer);
    case.check("cascade_differs", library, reference, &[]);
    classes::count_pair(counts, case, Given::Header, &[(9, !ha.permits(state))]);
    count(case, answer, counts);
}

fn count(Pair { a, b, .. }: &Pair, answer: Result<bool, reference::Refusal>, counts: &mut Counts) {
    let state = a.state;
    let last = inputs::all_lines(a.lines);
    match answer {
        Ok(differ) => {
            counts.add(["served: agree", "served: differ"][usize::from(differ)]);
            counts.add_if(!differ && a.words != b.words, "served: agree, other gates");
            let header = a.header();
            let marked = differ && header.marked();
            counts.add_if(marked, "served: differ, with marks");
            let without_junk = Header { junk: 0, ..header };
            let on_junk = reference::differs(without_junk, &a.words, without_junk, &b.words, state);
            let hidden = !differ && on_junk == Ok(true);
            counts.add_if(hidden, "served: agree, a junk line differs");
            counts.add_if(a.lines == 64, "served: n = 64");
            counts.add_if(state == u64::MAX, "served: n = 64, state 2^64 - 1");
            counts.add_if(state == last, "served: state 2^n - 1");
            counts.add_if(
                a.words.is_empty() && b.words.is_empty(),
                "served: both empty",
            );
            counts.add_if(
                a.words.len() + b.words.len() == 6 * CASCADE_GATES,
                "served: both have as many gates as the limit",
            );
        }
        Err(refusal) if refusal.number == 9 => {
            counts.add_if(state.wrapping_sub(1) == last, "9: state 2^n");
            let header = a.header();
            let broken = (state ^ header.values) & header.constants;
            let only = state <= last && broken.count_ones() == 1;
            let to_one = "9: only a constant of value 0 is broken";
            counts.add_if(only && broken & state != 0, to_one);
            let to_zero = "9: only a constant of value 1 is broken";
            counts.add_if(only && broken & state == 0, to_zero);
        }
        Err(_) => {}
    }
}
