//! Times the emission of miters of 2,048 gates on 64 lines, by the number of controls.

use crate::capi::{self, SizesAnswer};
use crate::random::Random;
use crate::{compare, inputs, plain, plain_emit, time};
use std::hint::black_box;

pub const LINES: u64 = 64;
const GATES: usize = 2048;
/// Calls between two readings of the clock.
pub const CALLS: usize = 8;
pub const ROUNDS: usize = 101;

type Emit = fn(u64, &[u64], &mut [i32]) -> SizesAnswer;

pub const EMIT: [Emit; 2] = [library_emit, plain_emit::emit];

fn library_emit(n: u64, words: &[u64], out: &mut [i32]) -> SizesAnswer {
    let (start, room) = (out.as_mut_ptr(), out.len());
    unsafe { capi::cascade_emit(n, words.as_ptr(), words.len(), start, room) }
}

/// So many gates, each with as many controls as `controls` draws.
pub fn cascade(random: &mut Random, gates: usize, controls: impl Fn(&mut Random) -> u32) -> Vec<u64> {
    inputs::cascade(random, LINES, gates, |random, target| {
        let k = controls(random);
        inputs::lines_besides(random, LINES, target, k)
    })
}

/// Both sides give the same answer and the same buffer, and serve exactly where there is room.
pub fn same(n: u64, words: &[u64], room: usize) -> SizesAnswer {
    let mut outs = [vec![9; room], vec![9; room]];
    let library = library_emit(n, words, &mut outs[0]);
    assert_eq!(library, plain_emit::emit(n, words, &mut outs[1]));
    assert_eq!(outs[0], outs[1]);
    library
}

/// The words of the longest list of so many gates.
pub const fn longest(gates: usize) -> usize {
    gates * (5 * 63 + 8) + 64 * 7 + 2
}

const ROOM: usize = longest(GATES);

pub fn check_equal(words: &[u64]) {
    let room = plain::sizes(LINES, words).words as usize + 3;
    let served = same(LINES, words, room);
    assert_eq!(served.number, 0);
    let exact = served.words as usize;
    assert_eq!(same(LINES, words, exact).number, 0);
    assert_eq!(same(LINES, words, exact - 1).number, 10);
    for n in [0, 1, 63, 65] {
        same(n, words, room);
        same(n, &words[1..], room);
    }
}

/// Prints a row for each number of controls and one for any number, and gives the highest ratio.
pub fn highest() -> f64 {
    let random = &mut Random::new(9);
    let mut highest: f64 = 0.0;
    let mut row = |name: String, words: Vec<u64>| {
        check_equal(&words);
        let side = |emit: Emit| {
            let words = &words;
            let out = std::cell::RefCell::new(vec![0; ROOM]);
            move || {
                time(CALLS, |_| {
                    let out = &mut *out.borrow_mut();
                    black_box(emit(LINES, black_box(words), black_box(out)));
                })
            }
        };
        let [library, plain] = EMIT.map(side);
        let ratio = compare("cascade_emit", &name, ROUNDS, library, plain);
        highest = highest.max(ratio);
    };
    for k in [0, 1, 2, 3, 8, 32, 63] {
        let words = cascade(random, GATES, |_| k);
        row(format!("2,048 gates, 64 lines, {k} controls"), words);
    }
    let words = cascade(random, GATES, |random| random.below(LINES) as u32);
    row("2,048 gates, 64 lines, 0 to 63 controls".into(), words);
    highest
}
