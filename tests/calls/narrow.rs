//! cascade_narrow, and the laws that what it gives is widened back to the same words and reads back to the
//! same clauses; also on lists that the library emits, of pairs and of cascades.

use crate::calls::{emit, widen};
use crate::capi::{self, WordsAnswer};
use crate::cases;
use crate::classes;
use crate::expected;
use crate::harness::{compare, compare_buffer, Buffer, Counts};
use crate::inputs::{self, Cascade};
use crate::random::Random;
use crate::reference;

const RANDOM_CASES: u64 = 50_000;
const EMITTED: u64 = 2_000;
/// Lists of each length below, with a wide word at each place.
const LENGTHS: usize = 8;
/// Lists of each length below, longer than what may be tested at once, with one wide word at each place.
const LONGER: usize = 80;

/// Words outside -32,768 to 32,767: one beyond each bound, those whose low half is a small number or a bound,
/// and the bounds of 32 bits.
const WIDE: &[i32] = &[
    -32_769,
    32_768,
    i32::MIN,
    i32::MAX,
    65_535,
    65_536,
    65_537,
    -65_536,
    -65_535,
    98_303,
    -98_304,
    1 << 16 | 1 << 15,
    1 << 30,
    -(1 << 30),
    i32::MIN + 1,
    i32::MIN + 32_767,
    i32::MAX - 32_767,
];

const CLASSES: &[&str] = &[
    "served: no words",
    "served: one word",
    "served: -32,768",
    "served: 32,767",
    "served: every word of 16 bits",
    "served: widened again",
    "served: a clause list",
    "served: words that are no clause list",
    "served: a list of the library, of a pair",
    "served: a list of the library, of a pair with marks",
    "served: a list of the library, 32,767 variables",
    "16: one word alone",
    "16: the first word of several",
    "16: the last word of several",
    "16: a word between",
    "16: another such word later",
    "16: place 64 or later, the last word",
    "16: a list of the library, 32,768 variables, the last word",
    "16: the longest list of the library",
];

/// What the call is given. With `dangling`, an empty slice has a dangling pointer.
#[derive(Debug)]
struct Case {
    words: Vec<i32>,
    out: Vec<i16>,
    dangling: bool,
}

pub fn section(random: &mut Random) -> Counts {
    let mut counts = Counts::new("cascade_narrow");
    counts.require_refusals(&[16, 10]);
    classes::require_buffers(&mut counts, &["words", "out"]);
    counts.require(CLASSES);
    for wide in WIDE {
        counts.require(&[&by_word(*wide)]);
    }
    each_wide(random, &mut counts);
    for word in i16::MIN..=i16::MAX {
        each_length(&[i32::from(word)], random, &mut counts);
    }
    let every: Vec<i32> = (i16::MIN..=i16::MAX).map(i32::from).collect();
    each_length(&every, random, &mut counts);
    for _ in 0..RANDOM_CASES {
        let words = any_words(random);
        let length = inputs::buffer_length(random, words.len());
        one(words, length, random, &mut counts);
    }
    for _ in 0..EMITTED {
        let lines = 1 + random.below(8);
        let marks = inputs::good_marks(random, lines);
        let pair = [random.index(10), random.index(10)]
            .map(|gates| inputs::good_cascade(random, lines, gates).with_marks(marks));
        let list = list_of_pair(&pair);
        let length = list.len();
        let number = one(list, length, random, &mut counts);
        compare(&pair, "a list of few variables fits", number, 0);
        counts.add(match pair[0].header().marked() {
            true => "served: a list of the library, of a pair with marks",
            false => "served: a list of the library, of a pair",
        });
    }
    each_bound(random, &mut counts);
    let longest = inputs::longest(random);
    let number = emitted(&inputs::from_zero(64, longest), random, &mut counts);
    counts.add_if(number == 16, "16: the longest list of the library");
    counts
}

/// Lists of few words with each wide word at each place, alone and before another one.
fn each_wide(random: &mut Random, counts: &mut Counts) {
    for length in 0..LENGTHS {
        let words = fitting(random, length);
        each_length(&words, random, counts);
        for place in 0..length {
            for wide in WIDE {
                let mut words = words.clone();
                words[place] = *wide;
                each_length(&words, random, counts);
                let later = place + random.index(length - place);
                words[later] = random.pick(WIDE);
                each_length(&words, random, counts);
            }
        }
    }
    for length in LENGTHS..LONGER {
        let words = fitting(random, length);
        each_length(&words, random, counts);
        for place in 0..length {
            let mut words = words.clone();
            words[place] = WIDE[(length + place) % WIDE.len()];
            one(words, length, random, counts);
        }
    }
}

/// Lists of the library with as many variables as 16 bits can number, and with one more, which its d alone
/// has: 64 inputs, two for a gate with two controls, one for a gate without, and a d for each line.
fn each_bound(random: &mut Random, counts: &mut Counts) {
    let pairs = (32_767 - 64 - 64) / 2;
    for without in [1, 2] {
        let with_two = (0..pairs).flat_map(|_| inputs::with_controls(random, 2, u64::MAX));
        let mut words: Vec<u64> = with_two.collect();
        words.extend([0, 0, 5].repeat(without));
        let cascade = inputs::from_zero(64, words);
        let sizes = reference::sizes(64, &cascade.words).expect("a cascade");
        compare(&"a list", "variables", sizes.variables, 32_766 + without as u64);
        let number = emitted(&cascade, random, counts);
        if without == 1 {
            compare(&"a list", "32,767 variables fit", number, 0);
            counts.add("served: a list of the library, 32,767 variables");
        }
    }
}

/// The list that the library emits for two cascades.
fn list_of_pair([a, b]: &[Cascade; 2]) -> Vec<i32> {
    let (ha, hb) = (a.header(), b.header());
    let sizes = reference::pair_sizes(ha, &a.words, hb, &b.words).expect("two cascades");
    let (ha, hb) = (expected::header(ha), expected::header(hb));
    let (mut first, mut second) = (Buffer::new(&a.words), Buffer::new(&b.words));
    let mut list = Buffer::new(&vec![0; sizes.words as usize]);
    let (a_len, b_len, out_len) = (first.len(), second.len(), list.len());
    let (a, b, out) = (first.pointer(), second.pointer(), list.pointer());
    let answer = unsafe { capi::cascade_pair_emit(ha, a, a_len, hb, b, b_len, out, out_len) };
    compare(&"a pair", "an emission is served", answer.number, 0);
    list.contents().to_vec()
}

/// Narrows the list that the library emits for a cascade, and returns the number of the answer.
fn emitted(cascade: &Cascade, random: &mut Random, counts: &mut Counts) -> u64 {
    let sizes = reference::sizes(cascade.lines, &cascade.words).expect("a cascade");
    let mut list = Buffer::new(&vec![0; sizes.words as usize]);
    let answer = emit::call(cascade.lines, &mut Buffer::new(&cascade.words), &mut list);
    compare(cascade, "an emission is served", answer.number, 0);
    let words = list.contents().to_vec();
    let last = reference::first_wide_word(&words) == Some(words.len() as u64 - 1);
    let bound = "16: a list of the library, 32,768 variables, the last word";
    counts.add_if(last && sizes.variables == 32_768, bound);
    let length = words.len();
    one(words, length, random, counts)
}

/// Words that fit, the bounds often among them.
fn fitting(random: &mut Random, length: usize) -> Vec<i32> {
    let word = |random: &mut Random| match random.below(6) {
        0 => random.pick(&[-32_768, 32_767, -32_767, 32_766]),
        1 => random.pick(&[-1, 0, 1]),
        _ => random.below(65_536) as i32 - 32_768,
    };
    (0..length).map(|_| word(random)).collect()
}

/// Words that fit, often with some that do not.
fn any_words(random: &mut Random) -> Vec<i32> {
    let length = random.index(30);
    let mut words = fitting(random, length);
    if length > 0 && random.one_in(3) {
        for _ in 0..1 + random.index(3) {
            let either = [random.word() as i32, random.pick(WIDE)];
            words[random.index(length)] = random.pick(&either);
        }
    }
    words
}

/// The words with buffers of every length around what they need.
fn each_length(words: &[i32], random: &mut Random, counts: &mut Counts) {
    for length in inputs::edge_lengths(words.len()) {
        one(words.to_vec(), length, random, counts);
    }
}

fn one(words: Vec<i32>, length: usize, random: &mut Random, counts: &mut Counts) -> u64 {
    let out = cases::drawn(random, length);
    let dangling = random.one_in(2);
    let case = Case {
        words,
        out,
        dangling,
    };
    check(&case, counts)
}

/// The library's answer.
pub fn call(words: &mut Buffer<i32>, out: &mut Buffer<i16>) -> WordsAnswer {
    let (words_len, out_len) = (words.len(), out.len());
    unsafe { capi::cascade_narrow(words.pointer(), words_len, out.pointer(), out_len) }
}

fn check(case: &Case, counts: &mut Counts) -> u64 {
    let mut words = Buffer::placed(&case.words, case.dangling);
    let mut out = Buffer::placed(&case.out, case.dangling);
    let library = call(&mut words, &mut out);
    let mut wanted = case.out.clone();
    let answer = expected::words_answer(reference::narrow(&case.words, &mut wanted));
    compare(case, "cascade_narrow: answer", library, answer);
    compare_buffer(case, "cascade_narrow: out", &out, &wanted);
    compare_buffer(case, "cascade_narrow: words", &words, &case.words);
    let number = answer.number;
    let short = reference::short_buffer(&case.out, case.words.len());
    let tests = [(16, reference::first_wide_word(&case.words).is_some()), (10, short)];
    let held: Vec<u64> = tests.iter().filter(|test| test.1).map(|test| test.0).collect();
    counts.add_case(&held);
    classes::count_pointer(counts, "words", &case.words, case.dangling);
    classes::count_out(counts, &case.out, case.dangling, case.words.len(), number);
    match number {
        0 => check_back(case, &out.contents()[..case.words.len()], counts),
        16 => count_wide(&case.words, answer.place as usize, counts),
        _ => {}
    }
    number
}

/// The library widens the narrow words back to the same ones, and both store the same clauses.
fn check_back(case: &Case, narrow: &[i16], counts: &mut Counts) {
    let mut back = Buffer::new(&vec![0; narrow.len()]);
    let answer = widen::call(&mut Buffer::new(narrow), &mut back);
    let wanted = expected::words_answer(Ok(narrow.len() as u64));
    compare(case, "widened again: answer", answer, wanted);
    compare_buffer(case, "widened again: words", &back, &case.words);
    counts.add("served: widened again");
    let clauses = reference::clauses_of(&case.words);
    counts.add_if(clauses.as_ref().is_some_and(|list| !list.is_empty()), "served: a clause list");
    counts.add_if(clauses.is_none(), "served: words that are no clause list");
    compare(case, "the clauses", reference::clauses_of(narrow), clauses);
    counts.add_if(narrow.is_empty(), "served: no words");
    counts.add_if(narrow.len() == 1, "served: one word");
    counts.add_if(narrow.contains(&i16::MIN), "served: -32,768");
    counts.add_if(narrow.contains(&i16::MAX), "served: 32,767");
    let every = (i16::MIN..=i16::MAX).eq(narrow.iter().copied());
    counts.add_if(every, "served: every word of 16 bits");
}

fn count_wide(words: &[i32], place: usize, counts: &mut Counts) {
    let last = words.len() - 1;
    counts.add_if(last == 0, "16: one word alone");
    counts.add_if(place == 0 && last > 0, "16: the first word of several");
    counts.add_if(place == last && last > 0, "16: the last word of several");
    counts.add_if(0 < place && place < last, "16: a word between");
    let late = "16: place 64 or later, the last word";
    counts.add_if(place == last && place >= 64, late);
    let later = reference::first_wide_word(&words[place + 1..]).is_some();
    counts.add_if(later, "16: another such word later");
    if WIDE.contains(&words[place]) {
        counts.add(&by_word(words[place]));
    }
}

fn by_word(word: i32) -> String {
    format!("16: the word {word}")
}
