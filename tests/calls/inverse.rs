//! cascade_inverse, and two laws between the library's own answers.

use crate::calls::run;
use crate::capi::{self, CountAnswer};
use crate::cases::{self, Single};
use crate::classes::{self, Given};
use crate::expected;
use crate::harness::{compare, compare_buffer, Buffer, Counts};
use crate::inputs::{self, Cascade};
use crate::random::Random;
use crate::reference::{self, CASCADE_GATES};

const RANDOM_CASES: u64 = 200_000;

const CLASSES: &[&str] = &["served: two gates or more"];

pub fn section(random: &mut Random) -> Counts {
    let buffers = &["words", "out"];
    let (name, given) = ("cascade_inverse", Given::Lines);
    let mut counts = classes::single_counts(name, given, &[10], buffers, CLASSES);
    let mut check = |case: Single| check(&case, &mut counts);
    cases::each_with_out(
        random,
        CASCADE_GATES,
        RANDOM_CASES,
        |random| inputs::cascade(random, CASCADE_GATES),
        needed,
        |_| true,
        &mut check,
    );
    counts
}

fn needed(cascade: &Cascade) -> usize {
    cascade.words.len()
}

fn call(lines: u64, words: &mut Buffer<u64>, out: &mut Buffer<u64>) -> CountAnswer {
    let (words_len, out_len) = (words.len(), out.len());
    unsafe { capi::cascade_inverse(lines, words.pointer(), words_len, out.pointer(), out_len) }
}

fn check(case: &Single, counts: &mut Counts) {
    let Cascade { lines, words, .. } = &case.cascade;
    let mut wanted = case.out.clone();
    let answer = expected::count_answer(reference::inverse(*lines, words, &mut wanted));
    let number = answer.number;
    let out = case.check_out("cascade_inverse", call, answer, &wanted);
    if number == 0 {
        check_laws(&case.cascade, &out.contents()[..words.len()]);
    }
    let further = [(10, reference::short_buffer(&case.out, words.len()))];
    let given = Given::Lines;
    classes::count_single(counts, case, given, CASCADE_GATES, &further, number);
    classes::count_out(counts, &case.out, case.dangling, words.len(), number);
    counts.add_if(number == 0 && words.len() >= 6, "served: two gates or more");
}

/// The inverse of the inverse is the cascade, and running the inverse on the output gives the input.
fn check_laws(case: &Cascade, inverse: &[u64]) {
    let mut words = Buffer::new(&case.words);
    let mut inverse = Buffer::new(inverse);
    let mut twice = Buffer::new(&vec![0; case.words.len()]);
    let library = call(case.lines, &mut inverse, &mut twice).gates;
    let gates = (case.words.len() / 3) as u64;
    compare(case, "inverse of the inverse: gates", library, gates);
    compare_buffer(case, "inverse of the inverse: words", &twice, &case.words);
    let state = case.state & inputs::all_lines(case.lines);
    let output = run::call(case.lines, &mut words, state).state;
    let input = run::call(case.lines, &mut inverse, output).state;
    compare(case, "run of the inverse on the output", input, state);
}
