//! Times the change of clause lists between words of 16 and of 32 bits.

use crate::capi::{self, WordsAnswer};
use crate::random::Random;
use crate::{compare, emit, plain, plain_emit, time};
use std::cell::RefCell;
use std::hint::black_box;

const ROUNDS: usize = 401;
/// Words handled between two readings of the clock.
const WORDS_A_ROUND: usize = 262_144;

type Widen = fn(&[i16], &mut [i32]) -> WordsAnswer;
type Narrow = fn(&[i32], &mut [i16]) -> WordsAnswer;

pub const WIDEN: [Widen; 2] = [library_widen, plain::widen];
pub const NARROW: [Narrow; 2] = [library_narrow, plain::narrow];

fn library_widen(words: &[i16], out: &mut [i32]) -> WordsAnswer {
    let (start, room) = (out.as_mut_ptr(), out.len());
    unsafe { capi::cascade_widen(words.as_ptr(), words.len(), start, room) }
}

fn library_narrow(words: &[i32], out: &mut [i16]) -> WordsAnswer {
    let (start, room) = (out.as_mut_ptr(), out.len());
    unsafe { capi::cascade_narrow(words.as_ptr(), words.len(), start, room) }
}

/// The first words of the clause list of a miter of so many gates, all of which 16 bits hold.
pub fn list(gates: usize, words: usize) -> Vec<i32> {
    let random = &mut Random::new(11);
    let miter = emit::cascade(random, gates, |random| random.below(emit::LINES) as u32);
    let mut out = vec![0; emit::longest(gates)];
    let answer = plain_emit::emit(emit::LINES, &miter, &mut out);
    assert!(answer.number == 0 && words <= answer.words as usize);
    out.truncate(words);
    out
}

pub fn narrowed(words: &[i32]) -> Vec<i16> {
    words.iter().map(|word| i16::try_from(*word).unwrap()).collect()
}

fn same_widen(words: &[i16], room: usize) -> WordsAnswer {
    let mut outs = [vec![9; room], vec![9; room]];
    let library = library_widen(words, &mut outs[0]);
    assert_eq!(library, plain::widen(words, &mut outs[1]));
    assert_eq!(outs[0], outs[1]);
    library
}

fn same_narrow(words: &[i32], room: usize) -> WordsAnswer {
    let mut outs = [vec![9; room], vec![9; room]];
    let library = library_narrow(words, &mut outs[0]);
    assert_eq!(library, plain::narrow(words, &mut outs[1]));
    assert_eq!(outs[0], outs[1]);
    library
}

/// Both sides give the same answers and the same buffers, serve exactly where there is room and each word
/// fits, and find the same first word that does not.
pub fn check_equal(words: &[i32]) {
    let (narrow, count) = (narrowed(words), words.len());
    for (room, number) in [(count + 3, 0), (count, 0), (count - 1, 10), (0, 10)] {
        assert_eq!(same_widen(&narrow, room).number, number);
        assert_eq!(same_narrow(words, room).number, number);
    }
    for place in [0, count / 2, count - 1] {
        for (word, number) in [(-32_769, 16), (-32_768, 0), (32_767, 0), (32_768, 16), (65_536, 16)] {
            let mut words = words.to_vec();
            (words[place], words[count - 1]) = (word, word);
            let answer = same_narrow(&words, count);
            assert_eq!((answer.number, answer.place), (number, if number == 0 { 0 } else { place as u64 }));
        }
    }
}

/// Prints a row of each call for each length, and gives the highest ratio.
pub fn highest() -> f64 {
    let all = list(2_048, 300_000);
    let lists = [("256 words", &all[..256]), ("16,384 words", &all[..16_384]), ("300,000 words", &all)];
    let mut highest: f64 = 0.0;
    for (name, words) in lists {
        check_equal(words);
        let (narrow, calls) = (narrowed(words), (WORDS_A_ROUND / words.len()).max(1));
        let [library, plain] = WIDEN.map(|widen| {
            let (narrow, out) = (&narrow, RefCell::new(vec![0; words.len()]));
            move || {
                let out = &mut *out.borrow_mut();
                time(calls, |_| {
                    black_box(widen(black_box(narrow), black_box(out)));
                })
            }
        });
        highest = highest.max(compare("cascade_widen", name, ROUNDS, library, plain));
        let [library, plain] = NARROW.map(|narrow| {
            let out = RefCell::new(vec![0; words.len()]);
            move || {
                let out = &mut *out.borrow_mut();
                time(calls, |_| {
                    black_box(narrow(black_box(words), black_box(out)));
                })
            }
        });
        highest = highest.max(compare("cascade_narrow", name, ROUNDS, library, plain));
    }
    highest
}
