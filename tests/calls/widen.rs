//! cascade_widen, and the laws that what it gives is narrowed back to the same words and reads back to the
//! same clauses.

use crate::calls::narrow;
use crate::capi::{self, WordsAnswer};
use crate::cases;
use crate::classes;
use crate::expected;
use crate::harness::{compare, compare_buffer, Buffer, Counts};
use crate::inputs;
use crate::random::Random;
use crate::reference;

const RANDOM_CASES: u64 = 50_000;
/// Lists of each length below, with each length of the buffer.
const LENGTHS: usize = 40;

const CLASSES: &[&str] = &[
    "served: no words",
    "served: one word",
    "served: every word of 16 bits",
    "served: -32,768",
    "served: 32,767",
    "served: a clause list",
    "served: an XOR and an OR",
    "served: words that are no clause list",
    "served: narrowed again",
];

/// What the call is given. With `dangling`, an empty slice has a dangling pointer.
#[derive(Debug)]
struct Case {
    words: Vec<i16>,
    out: Vec<i32>,
    dangling: bool,
}

pub fn section(random: &mut Random) -> Counts {
    let mut counts = Counts::new("cascade_widen");
    counts.require_refusals(&[10]);
    classes::require_buffers(&mut counts, &["words", "out"]);
    counts.require(CLASSES);
    for length in 0..LENGTHS {
        let words: Vec<i16> = cases::drawn(random, length);
        each_length(&words, random, &mut counts);
    }
    for word in i16::MIN..=i16::MAX {
        each_length(&[word], random, &mut counts);
    }
    let every: Vec<i16> = (i16::MIN..=i16::MAX).collect();
    each_length(&every, random, &mut counts);
    for _ in 0..RANDOM_CASES {
        let words = any_words(random);
        let length = inputs::buffer_length(random, words.len());
        one(words, length, random, &mut counts);
    }
    counts
}

/// A stored list of clauses, whole or cut, or any words.
fn any_words(random: &mut Random) -> Vec<i16> {
    let mut words = Vec::new();
    for _ in 0..random.index(6) {
        let literals = random.index(5);
        words.extend([random.index(2) as i16, literals as i16]);
        words.extend(cases::drawn::<i16>(random, literals));
    }
    match random.below(4) {
        0 => words.truncate(random.index(words.len() + 1)),
        1 => words = cases::drawn(random, words.len()),
        _ => {}
    }
    words
}

/// The words with buffers of every length around what they need.
fn each_length(words: &[i16], random: &mut Random, counts: &mut Counts) {
    for length in inputs::edge_lengths(words.len()) {
        one(words.to_vec(), length, random, counts);
    }
}

fn one(words: Vec<i16>, length: usize, random: &mut Random, counts: &mut Counts) {
    let out = cases::drawn(random, length);
    let dangling = random.one_in(2);
    let case = Case {
        words,
        out,
        dangling,
    };
    check(&case, counts);
}

/// The library's answer.
pub fn call(words: &mut Buffer<i16>, out: &mut Buffer<i32>) -> WordsAnswer {
    let (words_len, out_len) = (words.len(), out.len());
    unsafe { capi::cascade_widen(words.pointer(), words_len, out.pointer(), out_len) }
}

fn check(case: &Case, counts: &mut Counts) {
    let mut words = Buffer::placed(&case.words, case.dangling);
    let mut out = Buffer::placed(&case.out, case.dangling);
    let library = call(&mut words, &mut out);
    let mut wanted = case.out.clone();
    let answer = expected::words_answer(reference::widen(&case.words, &mut wanted));
    compare(case, "cascade_widen: answer", library, answer);
    compare_buffer(case, "cascade_widen: out", &out, &wanted);
    compare_buffer(case, "cascade_widen: words", &words, &case.words);
    let number = answer.number;
    counts.add_case(&[number][..(number != 0) as usize]);
    classes::count_pointer(counts, "words", &case.words, case.dangling);
    classes::count_out(counts, &case.out, case.dangling, case.words.len(), number);
    if number == 0 {
        check_back(case, &out.contents()[..case.words.len()], counts);
        count(&case.words, counts);
    }
}

/// The library narrows the wide words back to the same ones, and both store the same clauses.
fn check_back(case: &Case, wide: &[i32], counts: &mut Counts) {
    let mut back = Buffer::new(&vec![0; wide.len()]);
    let answer = narrow::call(&mut Buffer::new(wide), &mut back);
    let wanted = expected::words_answer(Ok(wide.len() as u64));
    compare(case, "narrowed again: answer", answer, wanted);
    compare_buffer(case, "narrowed again: words", &back, &case.words);
    counts.add("served: narrowed again");
    let clauses = reference::clauses_of(&case.words);
    compare(case, "the clauses", reference::clauses_of(wide), clauses);
}

fn count(words: &[i16], counts: &mut Counts) {
    counts.add_if(words.is_empty(), "served: no words");
    counts.add_if(words.len() == 1, "served: one word");
    let every = (i16::MIN..=i16::MAX).eq(words.iter().copied());
    counts.add_if(every, "served: every word of 16 bits");
    counts.add_if(words.contains(&i16::MIN), "served: -32,768");
    counts.add_if(words.contains(&i16::MAX), "served: 32,767");
    match reference::clauses_of(words) {
        Some(clauses) => {
            counts.add_if(!clauses.is_empty(), "served: a clause list");
            let xor = |clause: &reference::Clause| matches!(clause, reference::Clause::Xor(_));
            let both = clauses.iter().any(xor) && !clauses.iter().all(xor);
            counts.add_if(both, "served: an XOR and an OR");
        }
        None => counts.add("served: words that are no clause list"),
    }
}
