//! Times the sizes and the emission of two cascades of 1,024 gates on 64 lines, with marks and without, by
//! the number of controls.

use crate::capi::{self, Header, SizesAnswer};
use crate::emit::{self, CALLS, LINES, ROUNDS};
use crate::plain::{self, unmarked};
use crate::random::Random;
use crate::{compare, plain_emit, time};
use std::cell::RefCell;
use std::hint::black_box;

const GATES: usize = 1024;

/// The words of the longest list of two cascades of so many gates together: three more for each constant.
pub const fn longest(gates: usize) -> usize {
    emit::longest(gates) + 3 * 64
}

const ROOM: usize = longest(2 * GATES);

/// Two cascades with the same header.
struct Work {
    name: String,
    header: Header,
    a: Vec<u64>,
    b: Vec<u64>,
}

type Sizes = fn(Header, &[u64], Header, &[u64]) -> SizesAnswer;
type Emit = fn(Header, &[u64], Header, &[u64], &mut [i32]) -> SizesAnswer;

pub const PAIR_SIZES: [Sizes; 2] = [library_sizes, plain::pair_sizes];
pub const PAIR_EMIT: [Emit; 2] = [library_emit, plain_emit::pair_emit];

fn library_sizes(ha: Header, a: &[u64], hb: Header, b: &[u64]) -> SizesAnswer {
    unsafe { capi::cascade_pair_sizes(ha, a.as_ptr(), a.len(), hb, b.as_ptr(), b.len()) }
}

fn library_emit(ha: Header, a: &[u64], hb: Header, b: &[u64], out: &mut [i32]) -> SizesAnswer {
    let (start, room) = (out.as_mut_ptr(), out.len());
    let (first, second) = (a.as_ptr(), b.as_ptr());
    unsafe { capi::cascade_pair_emit(ha, first, a.len(), hb, second, b.len(), start, room) }
}

/// A header with constants and junk lines.
pub const MARKED: Header = Header {
    lines: LINES,
    constants: 0xff0f,
    values: 0x5505,
    junk: 0x0ff0_0000_0000_000f,
};

fn works() -> Vec<Work> {
    let random = &mut Random::new(10);
    let work = |header, what: &str, words: Vec<u64>| {
        let (a, b) = words.split_at(words.len() / 2);
        let kind = if header == MARKED {
            "marked"
        } else {
            "unmarked"
        };
        Work {
            name: format!("2 x 1,024, {kind}, {what} controls"),
            header,
            a: a.to_vec(),
            b: b.to_vec(),
        }
    };
    let mut works = Vec::new();
    for header in [MARKED, unmarked(LINES)] {
        for k in [0, 1, 2, 3, 8, 32, 63] {
            let words = emit::cascade(random, 2 * GATES, |_| k);
            works.push(work(header, &k.to_string(), words));
        }
        let words = emit::cascade(random, 2 * GATES, |random| random.below(LINES) as u32);
        works.push(work(header, "0 to 63", words));
    }
    works
}

/// Both sides give the same answers and the same buffer, and serve exactly where there is room.
pub fn check_equal(header: Header, a: &[u64], b: &[u64]) {
    let room = plain::pair_sizes(header, a, header, b).words as usize + 3;
    let served = same(header, a, header, b, room);
    assert_eq!(served.number, 0);
    let exact = served.words as usize;
    assert_eq!(same(header, a, header, b, exact).number, 0);
    assert_eq!(same(header, a, header, b, exact - 1).number, 10);
    for lines in [0, 1, 63, 65] {
        let other = Header { lines, ..header };
        same(header, a, other, b, room);
        same(other, &a[1..], other, b, room);
    }
    let other = Header { junk: 1, ..header };
    same(header, a, other, b, room);
}

pub fn same(ha: Header, a: &[u64], hb: Header, b: &[u64], room: usize) -> SizesAnswer {
    assert_eq!(library_sizes(ha, a, hb, b), plain::pair_sizes(ha, a, hb, b));
    let mut outs = [vec![9; room], vec![9; room]];
    let library = library_emit(ha, a, hb, b, &mut outs[0]);
    assert_eq!(library, plain_emit::pair_emit(ha, a, hb, b, &mut outs[1]));
    assert_eq!(outs[0], outs[1]);
    library
}

fn time_sizes(work: &Work, sizes: Sizes) -> f64 {
    time(CALLS, |_| {
        let (a, b) = (black_box(&work.a), black_box(&work.b));
        black_box(sizes(work.header, a, work.header, b));
    })
}

fn time_emit(work: &Work, emit: Emit, out: &mut [i32]) -> f64 {
    time(CALLS, |_| {
        let (a, b) = (black_box(&work.a), black_box(&work.b));
        black_box(emit(work.header, a, work.header, b, black_box(out)));
    })
}

/// Prints a row of each call for each work, and gives the highest ratio.
pub fn highest() -> f64 {
    let mut highest: f64 = 0.0;
    let works = works();
    for work in &works {
        check_equal(work.header, &work.a, &work.b);
        let side = |sizes: Sizes| move || time_sizes(work, sizes);
        let [library, plain] = PAIR_SIZES.map(side);
        highest = highest.max(compare("pair_sizes", &work.name, ROUNDS, library, plain));
    }
    for work in &works {
        let side = |emit: Emit| {
            let out = RefCell::new(vec![0; ROOM]);
            move || time_emit(work, emit, &mut out.borrow_mut())
        };
        let [library, plain] = PAIR_EMIT.map(side);
        highest = highest.max(compare("pair_emit", &work.name, ROUNDS, library, plain));
    }
    highest
}
