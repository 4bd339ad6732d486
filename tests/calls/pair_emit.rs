//! cascade_pair_emit, and the laws that a pair without marks gets the list of the library's own miter, and that
//! what is emitted reads back to the clauses of the two.

use crate::capi::{self, SizesAnswer};
use crate::cases::{self, Lent, Pair};
use crate::classes::{self, Given};
use crate::expected;
use crate::harness::{compare, compare_buffer, Buffer, Counts};
use crate::inputs::{self, Cascade};
use crate::random::Random;
use crate::reference::{self, MITER_GATES};

const RANDOM_CASES: u64 = 30_000;

const CLASSES: &[&str] = &[
    "served: unmarked, the list of the library's own miter",
    "served: read back",
    "served: the longest list, read back",
    "served: the longest list without marks, read back",
];

pub fn section(random: &mut Random) -> Counts {
    let (name, buffers) = ("cascade_pair_emit", &["a", "b", "out"]);
    let mut counts = classes::pair_counts(name, Given::Header, &[10], buffers, CLASSES);
    classes::require_pair_list(&mut counts);
    let mut check = |case: Pair<i32>| check(&case, &mut counts);
    inputs::each_pair_for_clauses(random, &mut |random, a, b| {
        cases::each_pair_length(random, &a, &b, needed(&a, &b), &mut check);
    });
    let draw = inputs::marked_pair;
    cases::each_drawn_pair(random, RANDOM_CASES, draw, needed, &mut check);
    counts
}

/// How many words the clause list has; more than enough for words that are no cascades, so that a call
/// that writes before its tests shows.
fn needed(a: &Cascade, b: &Cascade) -> usize {
    match reference::pair_sizes(a.header(), &a.words, b.header(), &b.words) {
        Ok(sizes) => sizes.words as usize,
        Err(_) => 100 + a.words.len() + b.words.len(),
    }
}

/// An empty buffer is shorter than every clause list, that of words which are no cascades included.
fn check(case: &Pair<i32>, counts: &mut Counts) {
    let Pair { a, b, out, .. } = case;
    let (ha, hb) = (a.header(), b.header());
    let library = |lent: &mut Lent<i32>| {
        let Lent { a, b, out, .. } = lent;
        let (a_len, b_len, out_len) = (a.len(), b.len(), out.len());
        let (ha, hb) = (expected::header(ha), expected::header(hb));
        let (a, b, out) = (a.pointer(), b.pointer(), out.pointer());
        unsafe { capi::cascade_pair_emit(ha, a, a_len, hb, b, b_len, out, out_len) }
    };
    let mut wanted = out.clone();
    let answer = reference::pair_emit(ha, &a.words, hb, &b.words, &mut wanted);
    let answer = expected::sizes_answer(answer);
    let written = case.check("cascade_pair_emit", library, answer, &wanted);
    let number = answer.number;
    let further = [(10, number == 10 || out.is_empty())];
    classes::count_pair(counts, case, Given::Header, &further);
    classes::count_out(counts, out, case.dangling, needed(a, b), number);
    if number == 0 {
        classes::count_pair_list(counts, a, b);
        check_back(case, &written.contents()[..answer.words as usize], counts);
        if !ha.marked() {
            check_miter(case, answer, &written, counts);
        }
    }
}

/// The words that are counted read back to the clauses of the two.
fn check_back(case: &Pair<i32>, words: &[i32], counts: &mut Counts) {
    let Pair { a, b, .. } = case;
    let (first, second) = (reference::gates_of(&a.words), reference::gates_of(&b.words));
    let list = reference::pair_list(a.header(), &first, &second);
    let read = reference::clauses_of(words);
    compare(case, "read back", read == Some(list.clauses), true);
    counts.add("served: read back");
    // a gate with 63 controls has 66, 63 times 4 and 5 words, a line 5 and a literal of the last OR, a constant 3
    let (gates, lines) = (MITER_GATES * (66 + 63 * 4 + 5), 64 * (5 + 1) + 2);
    let longest = "served: the longest list, read back";
    counts.add_if(words.len() == gates + lines + 64 * 3, longest);
    let unmarked = "served: the longest list without marks, read back";
    counts.add_if(words.len() == gates + lines, unmarked);
}

/// The list of the library's own miter is the same.
fn check_miter(case: &Pair<i32>, answer: SizesAnswer, list: &Buffer<i32>, counts: &mut Counts) {
    let Pair { a, b, .. } = case;
    let (mut first, mut second) = (Buffer::new(&a.words), Buffer::new(&b.words));
    let mut miter = Buffer::new(&vec![0; a.words.len() + b.words.len()]);
    let (a_len, b_len, miter_len) = (first.len(), second.len(), miter.len());
    let (n, a, b, words) = (a.lines, first.pointer(), second.pointer(), miter.pointer());
    unsafe { capi::cascade_miter(n, a, a_len, n, b, b_len, words, miter_len) };
    let mut other = Buffer::new(&case.out);
    let (out, out_len) = (other.pointer(), other.len());
    let of_miter = unsafe { capi::cascade_emit(n, words, miter_len, out, out_len) };
    compare(case, "the list of the miter: answer", of_miter, answer);
    compare_buffer(case, "the list of the miter: out", &other, list.contents());
    counts.add("served: unmarked, the list of the library's own miter");
}
