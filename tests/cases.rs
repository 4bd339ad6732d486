//! The cases of the calls on one cascade and on two: what a call is given, the buffers that it is
//! lent, and the comparison of its answer and of every buffer.

use crate::harness::{compare, compare_buffer, Buffer, Counts, Element};
use crate::inputs::{self, Cascade};
use crate::random::Random;
use crate::reference::{self, MITER_GATES};
use std::fmt::Debug;

/// An element of a buffer that a call writes.
pub trait Written: Element {
    fn of_word(word: u64) -> Self;
}

impl Written for u64 {
    fn of_word(word: u64) -> u64 {
        word
    }
}

impl Written for u8 {
    fn of_word(word: u64) -> u8 {
        word as u8
    }
}

impl Written for i16 {
    fn of_word(word: u64) -> i16 {
        word as i16
    }
}

impl Written for i32 {
    fn of_word(word: u64) -> i32 {
        word as i32
    }
}

/// Contents of a buffer.
pub fn drawn<T: Written>(random: &mut Random, length: usize) -> Vec<T> {
    (0..length).map(|_| T::of_word(random.word())).collect()
}

// ---- one cascade

/// A cascade, and the contents of the buffer that the call writes; none where it has no such buffer.
/// With `dangling`, an empty slice has a dangling pointer.
#[derive(Debug)]
pub struct Single<T = u64> {
    pub cascade: Cascade,
    pub out: Vec<T>,
    pub dangling: bool,
}

impl<T: Element> Single<T> {
    pub fn new(cascade: Cascade, dangling: bool) -> Single<T> {
        let out = vec![];
        Single {
            cascade,
            out,
            dangling,
        }
    }

    /// Calls the library on the words, and compares its answer and what it leaves there.
    pub fn check<A: Debug + PartialEq>(
        &self,
        call: &str,
        library: impl FnOnce(u64, &mut Buffer<u64>) -> A,
        reference: A,
        wanted: &[u64],
    ) {
        let mut words = Buffer::placed(&self.cascade.words, self.dangling);
        let library = library(self.cascade.lines, &mut words);
        compare(self, &format!("{call}: answer"), library, reference);
        compare_buffer(self, &format!("{call}: words"), &words, wanted);
    }

    /// The same for a call that leaves the words and writes into the other buffer, which is returned.
    pub fn check_out<A: Debug + PartialEq>(
        &self,
        call: &str,
        library: impl FnOnce(u64, &mut Buffer<u64>, &mut Buffer<T>) -> A,
        reference: A,
        wanted: &[T],
    ) -> Buffer<T> {
        let mut out = Buffer::placed(&self.out, self.dangling);
        let words = &self.cascade.words;
        self.check(
            call,
            |n, words| library(n, words, &mut out),
            reference,
            words,
        );
        compare_buffer(self, &format!("{call}: out"), &out, wanted);
        out
    }
}

/// Hands over every edge of the rules.
pub fn each_edge(random: &mut Random, limit: usize, check: &mut impl FnMut(Single)) {
    inputs::each_edge(random, limit, &mut |cascade| {
        check(Single::new(cascade, true))
    });
}

/// Hands over so many drawn cascades.
pub fn each_drawn(
    random: &mut Random,
    times: u64,
    draw: impl Fn(&mut Random) -> Cascade,
    check: &mut impl FnMut(Single),
) {
    for _ in 0..times {
        let cascade = draw(random);
        check(Single::new(cascade, random.one_in(2)));
    }
}

/// Hands over a cascade with each length of the buffer around what the answer needs.
pub fn each_length<T: Written>(
    random: &mut Random,
    cascade: &Cascade,
    needed: usize,
    dangling: impl Fn(&mut Random) -> bool,
    check: &mut impl FnMut(Single<T>),
) {
    for length in inputs::edge_lengths(needed) {
        let out = drawn(random, length);
        let given = Single::new(cascade.clone(), dangling(random));
        check(Single { out, ..given });
    }
}

/// Hands over every edge of the rules with each length of the buffer, then so many drawn cascades,
/// mostly with a buffer that is long enough.
pub fn each_with_out<T: Written>(
    random: &mut Random,
    limit: usize,
    times: u64,
    draw: impl Fn(&mut Random) -> Cascade,
    needed: impl Fn(&Cascade) -> usize,
    dangling: impl Fn(&mut Random) -> bool,
    check: &mut impl FnMut(Single<T>),
) {
    let mut contents = Random::new(random.word());
    inputs::each_edge(random, limit, &mut |cascade| {
        each_length(&mut contents, &cascade, needed(&cascade), &dangling, check);
    });
    for _ in 0..times {
        let cascade = draw(random);
        let length = inputs::buffer_length(random, needed(&cascade));
        let out = drawn(random, length);
        let given = Single::new(cascade, random.one_in(2));
        check(Single { out, ..given });
    }
}

/// The same answer and words on each of the other line counts on which the gates are valid.
pub fn check_other_lines<A: Copy + Debug + PartialEq>(
    cascade: &Cascade,
    others: &[u64],
    library: impl Fn(u64, &mut Buffer<u64>) -> A,
    answer: A,
    after: &[u64],
    counts: &mut Counts,
) {
    for lines in others {
        let valid = reference::test_cascade(*lines, &cascade.words, MITER_GATES).is_ok();
        if *lines != cascade.lines && valid {
            let mut words = Buffer::new(&cascade.words);
            compare(
                cascade,
                "another n: answer",
                library(*lines, &mut words),
                answer,
            );
            compare_buffer(cascade, "another n: words", &words, after);
            counts.add("the same with another n");
        }
    }
}

// ---- two cascades

/// Pair cascades, a list of states, and the contents of the buffer that the call writes; no states and
/// no contents where the call has no such buffers. With `dangling`, an empty slice has a dangling
/// pointer.
#[derive(Debug)]
pub struct Pair<T = u64> {
    pub a: Cascade,
    pub b: Cascade,
    pub states: Vec<u64>,
    pub out: Vec<T>,
    pub dangling: bool,
}

/// The buffers that are lent to a call on two cascades.
pub struct Lent<T = u64> {
    pub a: Buffer<u64>,
    pub b: Buffer<u64>,
    pub states: Buffer<u64>,
    pub out: Buffer<T>,
}

/// Hands over two cascades with each length of the buffer around what the answer needs.
pub fn each_pair_length<T: Written>(
    random: &mut Random,
    a: &Cascade,
    b: &Cascade,
    needed: usize,
    check: &mut impl FnMut(Pair<T>),
) {
    for length in inputs::edge_lengths(needed) {
        let out = drawn(random, length);
        let given = Pair::new(a.clone(), b.clone(), random.one_in(2));
        check(Pair { out, ..given });
    }
}

/// Hands over so many drawn pairs, mostly with a buffer that is long enough.
pub fn each_drawn_pair<T: Written>(
    random: &mut Random,
    times: u64,
    draw: impl Fn(&mut Random) -> (Cascade, Cascade),
    needed: impl Fn(&Cascade, &Cascade) -> usize,
    check: &mut impl FnMut(Pair<T>),
) {
    for _ in 0..times {
        let (a, b) = draw(random);
        let length = inputs::buffer_length(random, needed(&a, &b));
        let out = drawn(random, length);
        let given = Pair::new(a, b, random.one_in(2));
        check(Pair { out, ..given });
    }
}

impl<T: Element> Pair<T> {
    pub fn new(a: Cascade, b: Cascade, dangling: bool) -> Pair<T> {
        let (states, out) = (vec![], vec![]);
        Pair {
            a,
            b,
            states,
            out,
            dangling,
        }
    }

    /// Calls the library, and compares its answer, what it leaves in the buffer that it writes, and
    /// that it leaves the others. Returns the buffer that it writes.
    pub fn check<A: Debug + PartialEq>(
        &self,
        call: &str,
        library: impl FnOnce(&mut Lent<T>) -> A,
        reference: A,
        wanted: &[T],
    ) -> Buffer<T> {
        let placed = |words: &[u64]| Buffer::placed(words, self.dangling);
        let mut lent = Lent {
            a: placed(&self.a.words),
            b: placed(&self.b.words),
            states: placed(&self.states),
            out: Buffer::placed(&self.out, self.dangling),
        };
        let library = library(&mut lent);
        compare(self, &format!("{call}: answer"), library, reference);
        compare_buffer(self, &format!("{call}: out"), &lent.out, wanted);
        compare_buffer(self, &format!("{call}: a"), &lent.a, &self.a.words);
        compare_buffer(self, &format!("{call}: b"), &lent.b, &self.b.words);
        compare_buffer(self, &format!("{call}: states"), &lent.states, &self.states);
        lent.out
    }
}
