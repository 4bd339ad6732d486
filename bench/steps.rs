//! Times miter, step and reduction on miters of 2,048 gates.

use crate::capi::{self, CountAnswer, ReduceAnswer, StepAnswer};
use crate::random::Random;
use crate::{compare, inputs, plain, time};
use std::hint::black_box;

const GATES: usize = 1024;

fn library_miter(na: u64, a: &[u64], nb: u64, b: &[u64], out: &mut [u64]) -> CountAnswer {
    let (start, room) = (out.as_mut_ptr(), out.len());
    unsafe {
        capi::cascade_miter(
            na,
            a.as_ptr(),
            a.len(),
            nb,
            b.as_ptr(),
            b.len(),
            start,
            room,
        )
    }
}

fn library_step(n: u64, words: &mut [u64]) -> StepAnswer {
    unsafe { capi::cascade_step(n, words.as_mut_ptr(), words.len()) }
}

fn library_reduce(n: u64, words: &mut [u64]) -> ReduceAnswer {
    unsafe { capi::cascade_reduce(n, words.as_mut_ptr(), words.len()) }
}

/// Two cascades on as many lines, and their miter.
struct Work {
    name: &'static str,
    lines: u64,
    a: Vec<u64>,
    b: Vec<u64>,
    miter: Vec<u64>,
}

fn work(name: &'static str, lines: u64, a: Vec<u64>, b: Vec<u64>) -> Work {
    let mut miter = vec![0; a.len() + b.len()];
    assert_eq!(plain::miter(lines, &a, lines, &b, &mut miter).number, 0);
    Work {
        name,
        lines,
        a,
        b,
        miter,
    }
}

/// Gates of which none blocks another and none matches: controls on lines 0 to 31, targets above.
fn open_cascade(random: &mut Random) -> Vec<u64> {
    let mut words = Vec::new();
    for _ in 0..GATES {
        let positive = random.word() >> 32;
        let negative = random.word() >> 32 & !positive;
        words.extend([positive, negative, 32 + random.below(32)]);
    }
    words
}

/// Gates of which none blocks another and none matches, though each has every line of 12 to 63 but its
/// target for a positive control: on lines 0 to 11 each has polarities of its own, which differ from those
/// of any other on two lines at least. `numbers` has as many numbers below 2,048 as there are gates.
fn passing_cascade(random: &mut Random, numbers: std::ops::Range<u64>) -> Vec<u64> {
    const POLARITIES: u64 = 0xfff;
    let mut words = Vec::new();
    for number in numbers {
        let positive = number << 1 | u64::from(number.count_ones() % 2);
        let target = 12 + random.below(52);
        let others = !POLARITIES & !(1 << target);
        words.extend([positive | others, POLARITIES & !positive, target]);
    }
    words
}

fn works() -> Vec<Work> {
    let random = &mut Random::new(4);
    let mut cascade = |lines| inputs::few_controls(random, lines, GATES);
    let (narrow, wide) = (cascade(16), cascade(64));
    let (other_narrow, other_wide) = (cascade(16), cascade(64));
    let (open, other_open) = (open_cascade(random), open_cascade(random));
    let (passing, other_passing) = (passing_cascade(random, 0..1024), passing_cascade(random, 1024..2048));
    vec![
        work("equal, 16 lines", 16, narrow.clone(), narrow.clone()),
        work("equal, 64 lines", 64, wide.clone(), wide.clone()),
        work("unequal, 16 lines", 16, narrow, other_narrow),
        work("unequal, 64 lines", 64, wide, other_wide),
        work("no match, nothing blocks", 64, open, other_open),
        work("no match, all pass by opposition", 64, passing, other_passing),
    ]
}

/// Both sides give the same answers and the same words.
fn check_equal(work: &Work) {
    same_miter(work.lines, &work.a, &work.b, work.miter.len());
    same_step(work.lines, &work.miter);
    same_reduction(work.lines, &work.miter);
}

/// Both sides give the same answer and the same buffer.
pub fn same_miter(n: u64, a: &[u64], b: &[u64], room: usize) -> CountAnswer {
    let mut outs = [vec![9; room], vec![9; room]];
    let library = library_miter(n, a, n, b, &mut outs[0]);
    assert_eq!(library, plain::miter(n, a, n, b, &mut outs[1]));
    assert_eq!(outs[0], outs[1]);
    library
}

/// Both sides make the same step.
pub fn same_step(n: u64, words: &[u64]) -> StepAnswer {
    let (mut ours, mut theirs) = (words.to_vec(), words.to_vec());
    let library = library_step(n, &mut ours);
    assert_eq!((library, &ours), (plain::step(n, &mut theirs), &theirs));
    library
}

/// Both sides reduce to the same words.
pub fn same_reduction(n: u64, words: &[u64]) -> ReduceAnswer {
    let (mut ours, mut theirs) = (words.to_vec(), words.to_vec());
    let library = library_reduce(n, &mut ours);
    assert_eq!((library, &ours), (plain::reduce(n, &mut theirs), &theirs));
    library
}

/// Nanoseconds of one call on a fresh copy of the miter.
fn time_on_miter<A>(work: &Work, call: fn(u64, &mut [u64]) -> A) -> f64 {
    let mut words = work.miter.clone();
    time(1, |_| {
        black_box(call(work.lines, black_box(&mut words)));
    })
}

type Miter = fn(u64, &[u64], u64, &[u64], &mut [u64]) -> CountAnswer;

pub const MITER: [Miter; 2] = [library_miter, plain::miter];

fn time_miter(work: &Work, call: Miter) -> f64 {
    let mut out = vec![0; work.miter.len()];
    time(16, |_| {
        let (a, b) = (black_box(&work.a), black_box(&work.b));
        black_box(call(work.lines, a, work.lines, b, black_box(&mut out)));
    })
}

/// Prints a row of a call on the miter, of about a fifth of a second of each side.
fn row<A>(
    name: &str,
    work: &Work,
    library: fn(u64, &mut [u64]) -> A,
    plain: fn(u64, &mut [u64]) -> A,
) {
    let side = |call| move || time_on_miter(work, call);
    let rounds = (2e8 / time_on_miter(work, plain)) as usize;
    compare(name, work.name, rounds.clamp(31, 1001), side(library), side(plain));
}

/// Prints a row for each call in place and work.
pub fn rows() {
    for work in &works() {
        check_equal(work);
        row("cascade_step", work, library_step, plain::step);
        row("cascade_reduce", work, library_reduce, plain::reduce);
    }
}

/// Prints a row of the miter for each work, and gives the highest ratio.
pub fn miter_highest() -> f64 {
    let mut highest: f64 = 0.0;
    for work in &works() {
        check_equal(work);
        let side = |call: Miter| move || time_miter(work, call);
        let [library, plain] = MITER.map(side);
        highest = highest.max(compare("cascade_miter", work.name, 101, library, plain));
    }
    highest
}
