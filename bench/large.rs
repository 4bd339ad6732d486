//! Times the calls on cascades and miters of as many gates as there may be, 16,384 and 32,768, and how the
//! time a gate grows from a sixteenth of these to the whole.
//!
//! For the growth a call on the whole stands against sixteen calls, each on a sixteenth of the same gates,
//! which write one behind the other into the same buffer. So both go through the same memory, of which the
//! gates of a cascade alone take 393,216 bytes, and the first time that a call comes to a gate costs the same in
//! both. But a call that tests all gates before it writes comes to them again, and then a sixteenth is in a
//! nearer cache. The growth of a call of linear time is otherwise 1, of quadratic time 16.

use crate::capi::{CountAnswer, StateAnswer};
use crate::plain::{unmarked, LIMIT, MITER_LIMIT};
use crate::random::Random;
use crate::{emit, faults, inputs, median, pair, steps, widths};
use crate::{same, same_file, same_read, text, text_room};
use crate::{INVERSE, READ, RUN, SIZES, WRITE};
use std::hint::black_box;
use std::time::Instant;

/// The library's growth in times of plain Rust's. That of a call whose time is as n log n would be 1.4.
const GROWTH_LIMIT: f64 = 1.3;
const LINES: u64 = 64;
const PARTS: usize = 16;
/// About the nanoseconds of a row.
const ROW: f64 = 2e8;

/// An input, and its sixteenths.
struct Work<I> {
    name: &'static str,
    whole: [I; 1],
    parts: Vec<I>,
}

impl<I> Work<I> {
    fn of<J>(name: &'static str, all: &[J], make: impl Fn(&[J]) -> I) -> Work<I> {
        Work { name, whole: [make(all)], parts: all.chunks(all.len() / PARTS).map(make).collect() }
    }
}

/// Two cascades of as many gates, the gates of both, and the text of the first.
struct Input {
    a: Vec<u64>,
    b: Vec<u64>,
    both: Vec<u64>,
    text: Vec<u8>,
}

fn input(a: &[u64], b: &[u64]) -> Input {
    Input { a: a.to_vec(), b: b.to_vec(), both: [a, b].concat(), text: text(unmarked(LINES), a) }
}

/// Two cascades of as many gates as there may be, of each kind.
fn cascades() -> Vec<Work<Input>> {
    let random = &mut Random::new(12);
    let mut work = |name, controls: fn(&mut Random) -> u64| {
        let mut cascade = || inputs::cascade(random, LINES, LIMIT, |random, _| controls(random));
        let (a, b) = (cascade(), cascade());
        let sixteenths = a.chunks(a.len() / PARTS).zip(b.chunks(b.len() / PARTS));
        Work { name, whole: [input(&a, &b)], parts: sixteenths.map(|(a, b)| input(a, b)).collect() }
    };
    vec![
        work("few controls", |random| inputs::two_lines(random, LINES)),
        work("many controls", Random::word),
        work("no controls", |_| 0),
    ]
}

const LIST_WORDS: usize = 65_536;

/// A list of clauses in words of 16 bits and of 32.
fn list() -> Work<(Vec<i16>, Vec<i32>)> {
    let words = widths::list(2_048, LIST_WORDS);
    Work::of("clauses", &words, |words| (widths::narrowed(words), words.to_vec()))
}

const FEW_LINES: u64 = 4;

/// A cascade on few lines.
fn narrow_cascade() -> Work<Vec<u64>> {
    let words = inputs::few_controls(&mut Random::new(13), FEW_LINES, LIMIT);
    Work::of("4 lines", &words, <[u64]>::to_vec)
}

/// A cascade and one that differs from it on every state, by its last gate.
type Suspect = (Vec<u64>, Vec<u64>);

fn suspect(words: &[u64]) -> Suspect {
    let before = &words[..words.len() - 3];
    ([before, &[0, 0, 1]].concat(), [before, &[0, 0, 0]].concat())
}

/// Sixteen states on 64 lines.
fn states() -> Vec<u64> {
    Random::new(14).words(16)
}

// ---- equal answers

/// Both sides give the same answers and the same buffers.
fn check_equal(a: &[u64], b: &[u64]) {
    let both = [a, b].concat();
    for room in [a.len(), a.len() - 1] {
        same(LINES, a, 1, room);
    }
    same(LINES, &both, 1, both.len());
    assert_eq!(SIZES[0](LINES, &both).number, 0);
    same_file(unmarked(LINES), a);
    assert_eq!(steps::same_miter(LINES, a, b, both.len()).number, 0);
    assert_eq!(steps::same_miter(LINES, a, b, both.len() - 1).number, 10);
    assert_eq!(steps::same_step(LINES, &both).number, 0);
    emit::check_equal(&both);
    for header in [pair::MARKED, unmarked(LINES)] {
        pair::check_equal(header, a, b);
    }
}

/// Both sides give the same masks.
fn same_masks((suspect, reference): &Suspect) -> CountAnswer {
    let header = unmarked(LINES);
    let mut outs = [vec![9; suspect.len()], vec![9; suspect.len()]];
    let [library, plain] = [0, 1].map(|side| {
        faults::FAULT_MASKS[side](header, suspect, header, reference, &states(), &mut outs[side])
    });
    assert_eq!((library, &outs[0]), (plain, &outs[1]));
    library
}

/// Both sides find the same first difference.
fn same_difference(a: &[u64], b: &[u64]) -> StateAnswer {
    let header = unmarked(FEW_LINES);
    let [library, plain] = faults::FIRST_DIFFERENCE.map(|call| call(header, a, header, b));
    assert_eq!(library, plain);
    library
}

/// Both sides refuse one gate more, and change no buffer.
fn check_refused(a: &[u64]) {
    let more = [a, &a[..3]].concat();
    let both = [a, &more].concat();
    assert_eq!((more.len(), both.len()), (3 * 16_385, 3 * 32_769));
    same(LINES, &more, 1, more.len());
    same(LINES, &both, 1, both.len());
    assert_eq!(RUN[0](LINES, &more, 1).number, 6);
    assert_eq!(INVERSE[0](LINES, &more, &mut vec![0; more.len()]).number, 6);
    assert_eq!(SIZES[0](LINES, &both).number, 6);
    assert_eq!(emit::same(LINES, &both, emit::longest(MITER_LIMIT + 1)).number, 6);
    assert_eq!(steps::same_step(LINES, &both).number, 6);
    assert_eq!(steps::same_reduction(LINES, &both).number, 6);
    for (a, b) in [(a, &more[..]), (&more, a)] {
        assert_eq!(steps::same_miter(LINES, a, b, both.len()).number, 6);
        for header in [pair::MARKED, unmarked(LINES)] {
            assert_eq!(pair::same(header, a, header, b, pair::longest(MITER_LIMIT + 1)).number, 6);
        }
    }
    assert_eq!(same_masks(&suspect(&more)).number, 6);
    assert_eq!(same_difference(&more, a).number, 6);
    let mut texts = [(); 2].map(|_| vec![9; text_room(LIMIT + 1)]);
    for (write, text) in WRITE.iter().zip(&mut texts) {
        let answer = write(unmarked(LINES), &more, text);
        assert_eq!((answer.number, answer.place), (6, 0));
    }
    assert_eq!(texts[0], texts[1]);
    let mut text = text(unmarked(LINES), a);
    text.truncate(text.len() - b"end\n".len());
    text.extend(b"g\t0\nend\n");
    let answer = same_read(&text, more.len());
    assert_eq!((answer.number, answer.place), (6, 16_385));
}

// ---- time

/// Nanoseconds of a call on each of the inputs. It gives how many elements it wrote, and the next call writes
/// behind them.
fn time<I, T>(inputs: &[I], out: &mut [T], call: &impl Fn(&I, &mut [T]) -> usize) -> f64 {
    let start = Instant::now();
    let mut rest = black_box(out);
    for input in inputs {
        let written = black_box(call(black_box(input), rest));
        rest = black_box(&mut rest[written..]);
    }
    start.elapsed().as_nanos() as f64
}

/// The highest ratio of the library to plain Rust, and the highest of their growths.
struct Highest {
    ratio: f64,
    growth: f64,
}

impl Highest {
    /// Prints a row of a call for each work, of so many gates or words. The four that are measured in a round
    /// take turns at being first, and the ratio and the growths are the medians of the rounds'.
    fn rows<I, T: Clone + Default>(
        &mut self,
        call: &str,
        what: &str,
        units: usize,
        works: &[Work<I>],
        room: usize,
        sides: [impl Fn(&I, &mut [T]) -> usize; 2],
    ) {
        for work in works {
            let mut out = vec![T::default(); room];
            let mut measure = |which: usize| {
                let inputs = if which % 2 == 0 { &work.whole[..] } else { &work.parts };
                time(inputs, &mut out, &sides[which / 2])
            };
            // the first time writes to pages that are new
            let [_, round] = [(); 2].map(|_| (0..4).map(&mut measure).sum::<f64>());
            let mut columns: [Vec<f64>; 5] = Default::default();
            for round in 0..((ROW / round) as usize).clamp(41, 401) {
                let mut times = [0.0; 4];
                for turn in 0..4 {
                    let which = (round + turn) % 4;
                    times[which] = measure(which);
                }
                let [ours, our_parts, theirs, their_parts] = times;
                let each = units as f64;
                let row = [ours / each, theirs / each, ours / theirs, ours / our_parts, theirs / their_parts];
                columns.iter_mut().zip(row).for_each(|(column, number)| column.push(number));
            }
            let [ours, theirs, ratio, growth, plain] = columns.map(median);
            let name = format!("{what}, {}", work.name);
            println!("{call:<16} {name:<38} {ours:>9.2} {theirs:>9.2} {ratio:>6.3} {growth:>6.3} {plain:>6.3}");
            self.ratio = self.ratio.max(ratio);
            self.growth = self.growth.max(growth / plain);
        }
    }
}

/// Prints the rows, and tells whether all are within the limits.
pub fn rows() -> bool {
    let (works, lists) = (cascades(), [list()]);
    for work in &works {
        check_equal(&work.whole[0].a, &work.whole[0].b);
    }
    check_refused(&works[0].whole[0].a);
    widths::check_equal(&lists[0].whole[0].1);
    let suspects: Vec<_> = works.iter().map(|work| Work::of(work.name, &work.whole[0].a, suspect)).collect();
    for suspect in &suspects {
        assert_eq!(same_masks(&suspect.whole[0]).number, 0);
    }
    let narrow = [narrow_cascade()];
    let equal = &narrow[0].whole[0];
    let answer = same_difference(equal, equal);
    assert_eq!((answer.number, answer.found), (0, 0));
    assert_eq!(same_difference(&suspect(equal).0, equal).found, 1);
    println!("\nat the limits, nanoseconds a gate or word; growth: in times of sixteen calls, each on a sixteenth");
    let [call, name, ours, theirs, ratio] = ["call", "cascades", "ns", "plain ns", "ratio"];
    println!("{call:<16} {name:<38} {ours:>9} {theirs:>9} {ratio:>6} growth  plain");
    let mut highest = Highest { ratio: 0.0, growth: 0.0 };
    let (one, two) = ("16,384 gates", "32,768 gates");
    let (words, miter_words) = (3 * LIMIT, 3 * MITER_LIMIT);

    let run = RUN.map(|run| {
        move |input: &Input, _: &mut [u64]| {
            black_box(run(LINES, &input.a, 1));
            0
        }
    });
    highest.rows("cascade_run", one, LIMIT, &works, 0, run);

    let inverse = INVERSE.map(|inverse| {
        move |input: &Input, out: &mut [u64]| 3 * inverse(LINES, &input.a, out).gates as usize
    });
    highest.rows("cascade_inverse", one, LIMIT, &works, words, inverse);

    let miter = steps::MITER.map(|miter| {
        move |input: &Input, out: &mut [u64]| 3 * miter(LINES, &input.a, LINES, &input.b, out).gates as usize
    });
    highest.rows("cascade_miter", two, MITER_LIMIT, &works, miter_words, miter);

    let sizes = SIZES.map(|sizes| {
        move |input: &Input, _: &mut [u64]| {
            black_box(sizes(LINES, &input.both));
            0
        }
    });
    highest.rows("cascade_sizes", two, MITER_LIMIT, &works, 0, sizes);

    let emission = emit::EMIT.map(|emit| {
        move |input: &Input, out: &mut [i32]| emit(LINES, &input.both, out).words as usize
    });
    let room = PARTS * emit::longest(MITER_LIMIT / PARTS);
    highest.rows("cascade_emit", two, MITER_LIMIT, &works, room, emission);

    for (what, header) in [("2 x 16,384, marked", pair::MARKED), ("2 x 16,384, unmarked", unmarked(LINES))] {
        let sizes = pair::PAIR_SIZES.map(|sizes| {
            move |input: &Input, _: &mut [u64]| {
                black_box(sizes(header, &input.a, header, &input.b));
                0
            }
        });
        highest.rows("pair_sizes", what, MITER_LIMIT, &works, 0, sizes);

        let emission = pair::PAIR_EMIT.map(|emit| {
            move |input: &Input, out: &mut [i32]| emit(header, &input.a, header, &input.b, out).words as usize
        });
        let room = PARTS * pair::longest(MITER_LIMIT / PARTS);
        highest.rows("pair_emit", what, MITER_LIMIT, &works, room, emission);
    }

    let read = READ.map(|read| move |input: &Input, out: &mut [u64]| 3 * read(&input.text, out).gates as usize);
    highest.rows("cascade_read", one, LIMIT, &works, words, read);

    let write = WRITE.map(|write| {
        move |input: &Input, out: &mut [u8]| write(unmarked(LINES), &input.a, out).written as usize
    });
    highest.rows("cascade_write", one, LIMIT, &works, PARTS * text_room(LIMIT / PARTS), write);

    let masks = faults::FAULT_MASKS.map(|masks| {
        let (header, states) = (unmarked(LINES), states());
        move |(suspect, reference): &Suspect, out: &mut [u64]| {
            2 * masks(header, suspect, header, reference, &states, out).gates as usize
        }
    });
    highest.rows("fault_masks", "16,384 gates, 16 states", LIMIT, &suspects, 2 * LIMIT, masks);

    let difference = faults::FIRST_DIFFERENCE.map(|call| {
        let header = unmarked(FEW_LINES);
        move |words: &Vec<u64>, _: &mut [u64]| {
            black_box(call(header, words, header, words));
            0
        }
    });
    highest.rows("first_difference", "equal, 16,384 gates", LIMIT, &narrow, 0, difference);

    type List = (Vec<i16>, Vec<i32>);
    let widen = widths::WIDEN.map(|widen| move |list: &List, out: &mut [i32]| widen(&list.0, out).words as usize);
    highest.rows("cascade_widen", "65,536 words", LIST_WORDS, &lists, LIST_WORDS, widen);
    let narrow = widths::NARROW.map(|narrow| move |list: &List, out: &mut [i16]| narrow(&list.1, out).words as usize);
    highest.rows("cascade_narrow", "65,536 words", LIST_WORDS, &lists, LIST_WORDS, narrow);

    let Highest { ratio, growth } = highest;
    println!("bench: at the limits the highest ratio is {ratio:.2}, the limit {}", crate::LIMIT);
    println!("bench: the highest growth is {growth:.2} of plain Rust's, the limit {GROWTH_LIMIT}");
    ratio <= crate::LIMIT && growth <= GROWTH_LIMIT
}
