//! Times the C interface of the library against plain Rust, in one run and on the same inputs. Fails
//! where the library takes more than `LIMIT` times as long. With the argument `large` it does so for the
//! largest cascades alone. With `steps` it times a step and a reduction alone, with `files` reading and
//! writing against an earlier archive (bench/files_before), and judges nothing: bench/at_places does, over
//! several places of the code.

#[allow(dead_code)]
#[path = "../tests/capi.rs"]
mod capi;
mod emit;
mod faults;
mod inputs;
mod large;
mod pair;
mod plain;
mod plain_emit;
mod plain_file;
#[allow(dead_code)]
#[path = "../tests/random.rs"]
mod random;
mod steps;
mod widths;

use capi::{CountAnswer, Header, ReadAnswer, RunAnswer, SizesAnswer, WriteAnswer};
use plain::unmarked;
use random::Random;
use std::hint::black_box;
use std::time::Instant;

const LIMIT: f64 = 1.2;
/// The same for reading and writing of files.
const FILE_LIMIT: f64 = 1.3;
const ROUNDS: usize = 401;
const CASCADES: usize = 8;
/// Gates handled between two readings of the clock.
const GATES_A_ROUND: usize = 32_768;
/// The same for files, whose gates take longer.
const FILE_GATES_A_ROUND: usize = 2_048;

// ---- the two sides

type Run = fn(u64, &[u64], u64) -> RunAnswer;
type Inverse = fn(u64, &[u64], &mut [u64]) -> CountAnswer;
type Sizes = fn(u64, &[u64]) -> SizesAnswer;

const RUN: [Run; 2] = [library_run, plain::run];
const HINTED_RUN: [Run; 2] = [library_run, plain::run_hinted];
const INVERSE: [Inverse; 2] = [library_inverse, plain::inverse];
const SIZES: [Sizes; 2] = [library_sizes, plain::sizes];

fn library_run(n: u64, words: &[u64], state: u64) -> RunAnswer {
    unsafe { capi::cascade_run(n, words.as_ptr(), words.len(), state) }
}

fn library_inverse(n: u64, words: &[u64], out: &mut [u64]) -> CountAnswer {
    let (start, room) = (out.as_mut_ptr(), out.len());
    unsafe { capi::cascade_inverse(n, words.as_ptr(), words.len(), start, room) }
}

fn library_sizes(n: u64, words: &[u64]) -> SizesAnswer {
    unsafe { capi::cascade_sizes(n, words.as_ptr(), words.len()) }
}

type Read = fn(&[u8], &mut [u64]) -> ReadAnswer;
type Write = fn(Header, &[u64], &mut [u8]) -> WriteAnswer;

const READ: [Read; 2] = [library_read, plain_file::read];
const WRITE: [Write; 2] = [library_write, plain_file::write];

fn library_read(text: &[u8], out: &mut [u64]) -> ReadAnswer {
    let (start, room) = (out.as_mut_ptr(), out.len());
    unsafe { capi::cascade_read(text.as_ptr(), text.len(), start, room) }
}

fn library_write(header: Header, words: &[u64], out: &mut [u8]) -> WriteAnswer {
    let (start, room) = (out.as_mut_ptr(), out.len());
    unsafe { capi::cascade_write(header, words.as_ptr(), words.len(), start, room) }
}

/// Reading and writing by an earlier archive, whose calls have names of their own.
#[cfg(before)]
mod earlier {
    use super::*;

    extern "C" {
        fn before_cascade_read(text: *const u8, text_len: usize, out: *mut u64, out_len: usize) -> ReadAnswer;
        fn before_cascade_write(
            header: Header,
            words: *const u64,
            words_len: usize,
            out: *mut u8,
            out_len: usize,
        ) -> WriteAnswer;
    }

    pub fn read(text: &[u8], out: &mut [u64]) -> ReadAnswer {
        let (start, room) = (out.as_mut_ptr(), out.len());
        unsafe { before_cascade_read(text.as_ptr(), text.len(), start, room) }
    }

    pub fn write(header: Header, words: &[u64], out: &mut [u8]) -> WriteAnswer {
        let (start, room) = (out.as_mut_ptr(), out.len());
        unsafe { before_cascade_write(header, words.as_ptr(), words.len(), start, room) }
    }
}

// ---- inputs

/// Cascades of one kind, to be called in turn.
struct Work {
    name: &'static str,
    header: Header,
    cascades: Vec<Vec<u64>>,
    texts: Vec<Vec<u8>>,
}

/// Valid gates; `controls` draws the mask of control lines.
fn work(
    name: &'static str,
    header: Header,
    gates: usize,
    controls: fn(&mut Random) -> u64,
) -> Work {
    let lines = header.lines;
    let mut random = Random::new(lines);
    let mut cascade = || inputs::cascade(&mut random, lines, gates, |random, _| controls(random));
    let cascades: Vec<Vec<u64>> = (0..CASCADES).map(|_| cascade()).collect();
    let texts = cascades.iter().map(|words| text(header, words)).collect();
    Work {
        name,
        header,
        cascades,
        texts,
    }
}

/// Bytes that hold the text of a cascade of so many gates: no gate's line has more than 247, all other lines
/// together have fewer than 2,048.
fn text_room(gates: usize) -> usize {
    256 * gates + 2_048
}

fn text(header: Header, words: &[u64]) -> Vec<u8> {
    let mut out = vec![0; text_room(words.len() / 3)];
    let written = plain_file::write(header, words, &mut out).written;
    out[..written as usize].to_vec()
}

fn works() -> Vec<Work> {
    let none = |_: &mut Random| 0;
    let half = |random: &mut Random| random.word();
    let (wide, narrow) = (unmarked(64), unmarked(8));
    vec![
        work("1,024 gates, 64 lines, few controls", wide, 1024, few),
        work("1,024 gates, 64 lines, many controls", wide, 1024, half),
        work("1,024 gates, 64 lines, no controls", wide, 1024, none),
        work("16 gates, 8 lines, few controls", narrow, 16, quarter),
    ]
}

/// Cascades with marks, whose files are read and written.
fn marked_works() -> Vec<Work> {
    let marked = |lines, mask| Header {
        lines,
        constants: mask,
        values: mask & 0x5555_5555_5555_5555,
        junk: mask,
    };
    vec![
        work("1,024 gates, 64 lines, all marked", marked(64, u64::MAX), 1024, few),
        work("16 gates, 8 lines, all marked", marked(8, 255), 16, quarter),
    ]
}

fn few(random: &mut Random) -> u64 {
    inputs::two_lines(random, 64)
}

fn quarter(random: &mut Random) -> u64 {
    random.word() & random.word()
}

// ---- equal answers

/// Equal answers on what is timed, where every call is served, and on refusals of each kind.
fn check_equal(works: &[Work]) {
    for work in works {
        let lines = work.header.lines;
        for words in &work.cascades {
            assert_eq!(plain::run(lines, words, 0).number, 0);
            same(lines, words, 0, words.len());
            same_file(work.header, words);
            let last_state = u64::MAX >> (64 - lines);
            same(lines, words, last_state, words.len() + 2);
        }
    }
    let words = &works[0].cascades[0];
    let mut bad = words.clone();
    bad[3 * 700] = u64::MAX;
    bad[3 * 800 + 2] = 64;
    let long = [&words.repeat(16), &bad[..]].concat();
    for n in [0, 1, 63, 64, 65, u64::MAX] {
        for words in [words, &bad, &long, &vec![], &vec![0; 3]] {
            for cut in 0..3.min(words.len() + 1) {
                same(n, &words[..words.len() - cut], 1 << 62, words.len());
                same(n, &words[..words.len() - cut], u64::MAX, words.len() / 2);
            }
        }
    }
}

/// Both sides give the same answers and the same buffer.
fn same(n: u64, words: &[u64], state: u64, room: usize) {
    assert_eq!(library_run(n, words, state), plain::run(n, words, state));
    let mut outs = [vec![9; room], vec![9; room]];
    let library = library_inverse(n, words, &mut outs[0]);
    assert_eq!(library, plain::inverse(n, words, &mut outs[1]));
    assert_eq!(outs[0], outs[1]);
    assert_eq!(library_sizes(n, words), plain::sizes(n, words));
}

/// Both sides write the same text, and read the same words back, also where it is cut.
fn same_file(header: Header, words: &[u64]) {
    let mut texts = [(); 2].map(|_| vec![9; text_room(words.len() / 3)]);
    let library = library_write(header, words, &mut texts[0]);
    assert_eq!(library, plain_file::write(header, words, &mut texts[1]));
    assert_eq!(texts[0], texts[1]);
    assert_eq!(library.number, 0);
    let length = library.written as usize;
    for cut in [0, 1, 4, 5, 9, length / 2] {
        same_read(&texts[0][..length - cut], words.len());
    }
}

/// Both sides read the same words.
fn same_read(text: &[u8], room: usize) -> ReadAnswer {
    let mut outs = [vec![9; room], vec![9; room]];
    let library = library_read(text, &mut outs[0]);
    assert_eq!(library, plain_file::read(text, &mut outs[1]));
    assert_eq!(outs[0], outs[1]);
    library
}

/// The earlier archive writes the same text, and reads the same words.
#[cfg(before)]
fn check_earlier(work: &Work) {
    for words in &work.cascades {
        let mut texts = [(); 2].map(|_| vec![9; text_room(words.len() / 3)]);
        let library = library_write(work.header, words, &mut texts[0]);
        assert_eq!(library, earlier::write(work.header, words, &mut texts[1]));
        assert_eq!(library.number, 0);
        assert_eq!(texts[0], texts[1]);
        let mut outs = [vec![9; words.len()], vec![9; words.len()]];
        let library = library_read(&texts[0], &mut outs[0]);
        assert_eq!(library, earlier::read(&texts[0], &mut outs[1]));
        assert_eq!(outs[0], outs[1]);
    }
}

// ---- time

/// Nanoseconds of one of so many calls.
fn time(calls: usize, mut call: impl FnMut(usize)) -> f64 {
    let start = Instant::now();
    for index in 0..calls {
        call(index);
    }
    start.elapsed().as_nanos() as f64 / calls as f64
}

impl Work {
    /// Nanoseconds of one of the calls between two readings of the clock, each on the cascade at an
    /// index.
    fn time(&self, gates_a_round: usize, mut call: impl FnMut(usize)) -> f64 {
        let calls = gates_a_round / (self.cascades[0].len() / 3);
        time(calls, |index| call(index % CASCADES))
    }
}

/// Each call's state is the one before's output.
fn time_run(work: &Work, run: Run) -> f64 {
    let mut state = 1;
    let time = work.time(GATES_A_ROUND, |index| {
        state = run(work.header.lines, black_box(&work.cascades[index]), state).state;
    });
    black_box(state);
    time
}

/// Into a buffer of exactly the answer's length.
fn time_inverse(work: &Work, inverse: Inverse) -> f64 {
    let mut out = vec![0; work.cascades[0].len()];
    work.time(GATES_A_ROUND, |index| {
        let words = black_box(&work.cascades[index]);
        black_box(inverse(work.header.lines, words, black_box(&mut out)));
    })
}

fn time_sizes(work: &Work, sizes: Sizes) -> f64 {
    work.time(GATES_A_ROUND, |index| {
        black_box(sizes(work.header.lines, black_box(&work.cascades[index])));
    })
}

/// On the text of a cascade.
fn time_read(work: &Work, read: Read) -> f64 {
    let mut out = vec![0; work.cascades[0].len()];
    work.time(FILE_GATES_A_ROUND, |index| {
        black_box(read(black_box(&work.texts[index]), black_box(&mut out)));
    })
}

/// Into a buffer that is long enough.
fn time_write(work: &Work, write: Write) -> f64 {
    let mut out = vec![0; text_room(work.cascades[0].len() / 3)];
    work.time(FILE_GATES_A_ROUND, |index| {
        let words = black_box(&work.cascades[index]);
        black_box(write(work.header, words, black_box(&mut out)));
    })
}

fn median(mut numbers: Vec<f64>) -> f64 {
    numbers.sort_by(f64::total_cmp);
    numbers[numbers.len() / 2]
}

/// Prints a row and gives the ratio. The sides take turns at being first in a round, and the ratio is
/// the median of the rounds' ratios.
fn compare(
    call: &str,
    work: &str,
    rounds: usize,
    library: impl Fn() -> f64,
    plain: impl Fn() -> f64,
) -> f64 {
    let (mut ours, mut theirs, mut ratios) = (Vec::new(), Vec::new(), Vec::new());
    for round in 0..rounds {
        let (own, other) = if round % 2 == 0 {
            let own = library();
            (own, plain())
        } else {
            let other = plain();
            (library(), other)
        };
        ours.push(own);
        theirs.push(other);
        ratios.push(own / other);
    }
    let ratio = median(ratios);
    let (ours, theirs) = (median(ours), median(theirs));
    println!("{call:<16} {work:<38} {ours:>9.1} {theirs:>9.1} {ratio:>6.3}");
    ratio
}

/// Prints a row for each work, with the times of the two sides, and gives the highest ratio.
fn rows<F: Copy>(call: &str, works: &[Work], time: fn(&Work, F) -> f64, sides: [F; 2]) -> f64 {
    let ratio = |work: &Work| {
        let [library, plain] = sides.map(|side| move || time(work, side));
        compare(call, work.name, ROUNDS, library, plain)
    };
    works.iter().map(ratio).fold(0.0, f64::max)
}

/// Code that moves what stands after it, by the bytes that bench/at_places asks for.
#[inline(never)]
fn shift() {
    #[cfg(shifted)]
    unsafe {
        core::arch::asm!(concat!(".skip ", env!("SHIFT"), ", 0x90"))
    }
}

fn main() {
    shift();
    let what = std::env::args().nth(1);
    if what.as_deref() == Some("steps") {
        return steps::rows();
    }
    if what.as_deref() == Some("large") {
        std::process::exit(i32::from(!large::rows()));
    }
    let (works, marked) = (works(), marked_works());
    check_equal(&works);
    check_equal(&marked);
    #[cfg(before)]
    if what.as_deref() == Some("files") {
        for works in [&works, &marked] {
            works.iter().for_each(check_earlier);
            rows("cascade_read", works, time_read, [library_read, earlier::read]);
            rows("cascade_write", works, time_write, [library_write, earlier::write]);
        }
        return;
    }
    let head = ["call", "cascades", "ns", "plain ns", "ratio"];
    let [call, work, ours, theirs, ratio] = head;
    println!("{call:<16} {work:<38} {ours:>9} {theirs:>9} {ratio:>6}");
    let ratios = [
        rows("cascade_run", &works, time_run, RUN),
        rows("cascade_inverse", &works, time_inverse, INVERSE),
        rows("cascade_sizes", &works, time_sizes, SIZES),
        steps::miter_highest(),
        faults::highest(),
        emit::highest(),
        pair::highest(),
        widths::highest(),
    ];
    let highest = ratios.into_iter().fold(0.0, f64::max);
    println!("bench: the highest ratio is {highest:.2}, the limit {LIMIT}");
    let ratios = [
        rows("cascade_read", &works, time_read, READ),
        rows("cascade_read", &marked, time_read, READ),
        rows("cascade_write", &works, time_write, WRITE),
        rows("cascade_write", &marked, time_write, WRITE),
    ];
    let file_highest = ratios.into_iter().fold(0.0, f64::max);
    println!("bench: of files {file_highest:.2}, the limit {FILE_LIMIT}");
    let large = large::rows();
    println!("\nagainst plain Rust with std::hint::select_unpredictable (not judged)");
    rows("cascade_run", &works, time_run, HINTED_RUN);
    if highest > LIMIT || file_highest > FILE_LIMIT || !large {
        std::process::exit(1);
    }
}
