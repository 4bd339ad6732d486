//! The calls in plain Rust, written for speed, with the same answers as the C interface.

use crate::capi::{CountAnswer, Header, ReduceAnswer, RunAnswer};
use crate::capi::{SizesAnswer, StateAnswer, StepAnswer, WordsAnswer};
use std::hint::select_unpredictable;

/// The gates of a cascade.
pub const LIMIT: usize = 16_384;
/// The gates of a miter.
pub const MITER_LIMIT: usize = 32_768;

/// The tests 2, 11, 6: the number of the first that holds, or 0.
#[inline(always)]
fn shape_refusal(n: u64, words: &[u64], limit: usize) -> u64 {
    if n.wrapping_sub(1) >= 64 {
        2
    } else if words.len() % 3 != 0 {
        11
    } else if words.len() > 3 * limit {
        6
    } else {
        0
    }
}

/// The lines at n or above, for n from 1 to 64.
#[inline(always)]
fn lines_from(n: u64) -> u64 {
    !(u64::MAX >> (64 - n))
}

#[inline(always)]
fn is_gate([positive, negative, target]: [u64; 3], n: u64, lines_from_n: u64) -> bool {
    let forbidden = lines_from_n | 1u64.wrapping_shl(target as u32);
    ((positive | negative) & forbidden) | (positive & negative) == 0 && target < n
}

/// Tests and applies each gate in one pass; `inverted` is the state with the target inverted where
/// the gate fires.
#[inline(always)]
fn run_by(n: u64, words: &[u64], state: u64, inverted: fn(u64, u64, bool) -> u64) -> RunAnswer {
    let number = shape_refusal(n, words, LIMIT);
    if number != 0 {
        return RunAnswer {
            number,
            place: 0,
            state: 0,
        };
    }
    let lines_from_n = lines_from(n);
    let mut now = state;
    for (index, &gate) in words.as_chunks().0.iter().enumerate() {
        if !is_gate(gate, n, lines_from_n) {
            return RunAnswer {
                number: 7,
                place: index as u64,
                state: 0,
            };
        }
        let [positive, negative, target] = gate;
        let fires = (now ^ positive) & (positive | negative) == 0;
        now = inverted(now, target, fires);
    }
    if state & lines_from_n != 0 {
        return RunAnswer {
            number: 9,
            place: 0,
            state: 0,
        };
    }
    RunAnswer {
        number: 0,
        place: 0,
        state: now,
    }
}

/// The firing bit, shifted to the target.
#[inline(never)]
pub fn run(n: u64, words: &[u64], state: u64) -> RunAnswer {
    run_by(n, words, state, |now, target, fires| {
        now ^ (fires as u64) << (target & 63)
    })
}

/// With a hint to the compiler that Rattle does not have.
#[inline(never)]
pub fn run_hinted(n: u64, words: &[u64], state: u64) -> RunAnswer {
    run_by(n, words, state, |now, target, fires| {
        select_unpredictable(fires, now ^ 1u64.wrapping_shl(target as u32), now)
    })
}

/// Tests all gates, then copies them from the last place to the first.
#[inline(never)]
pub fn inverse(n: u64, words: &[u64], out: &mut [u64]) -> CountAnswer {
    let number = shape_refusal(n, words, LIMIT);
    if number != 0 {
        return CountAnswer {
            number,
            place: 0,
            gates: 0,
        };
    }
    let lines_from_n = lines_from(n);
    let gates = words.as_chunks().0;
    if let Some(index) = gates
        .iter()
        .position(|gate| !is_gate(*gate, n, lines_from_n))
    {
        return CountAnswer {
            number: 7,
            place: index as u64,
            gates: 0,
        };
    }
    let Some(out) = out.get_mut(..words.len()) else {
        return CountAnswer {
            number: 10,
            place: 0,
            gates: 0,
        };
    };
    for (to, from) in out.as_chunks_mut().0.iter_mut().rev().zip(gates) {
        *to = *from;
    }
    CountAnswer {
        number: 0,
        place: 0,
        gates: gates.len() as u64,
    }
}

/// The sums of the sizes of gates, and the lines that they target.
#[derive(Clone, Copy)]
struct Sums {
    variables: u64,
    clauses: u64,
    words: u64,
    targeted: u64,
}

/// Tests each gate and adds its sizes to the sums, in one pass; else the first that is none.
#[inline(always)]
fn sums(n: u64, words: &[u64], sums: Sums) -> Result<Sums, u64> {
    let lines_from_n = lines_from(n);
    let Sums {
        mut variables,
        mut clauses,
        words: mut total,
        mut targeted,
    } = sums;
    for (index, &gate) in words.as_chunks().0.iter().enumerate() {
        if !is_gate(gate, n, lines_from_n) {
            return Err(index as u64);
        }
        let [positive, negative, target] = gate;
        let k = u64::from(positive.count_ones() + negative.count_ones());
        targeted |= 1 << target;
        let many = k >= 2;
        variables += if many { 2 } else { 1 };
        clauses += if many { k + 2 } else { 1 };
        total += if many { 5 * k + 8 } else { 4 + k };
    }
    Ok(Sums {
        variables,
        clauses,
        words: total,
        targeted,
    })
}

pub fn sizes_refused(number: u64, place: u64) -> SizesAnswer {
    SizesAnswer {
        number,
        place,
        variables: 0,
        clauses: 0,
        words: 0,
    }
}

/// The share of inputs, constants and lines that count in a list, before any gate.
#[inline(always)]
fn share(header: Header) -> Sums {
    let constants = u64::from(header.constants.count_ones());
    let counted = header.lines - u64::from(header.junk.count_ones());
    Sums {
        variables: header.lines + counted,
        clauses: constants + counted + 1,
        words: 3 * constants + 4 * counted + 2,
        targeted: 0,
    }
}

/// The sizes, with two words more for each line that counts and is targeted.
#[inline(always)]
fn sizes_served(sums: Sums, junk: u64) -> SizesAnswer {
    SizesAnswer {
        number: 0,
        place: 0,
        variables: sums.variables,
        clauses: sums.clauses,
        words: sums.words + 2 * u64::from((sums.targeted & !junk).count_ones()),
    }
}

#[inline(never)]
pub fn sizes(n: u64, words: &[u64]) -> SizesAnswer {
    let number = shape_refusal(n, words, MITER_LIMIT);
    if number != 0 {
        return sizes_refused(number, 0);
    }
    match sums(n, words, share(unmarked(n))) {
        Ok(sums) => sizes_served(sums, 0),
        Err(place) => sizes_refused(7, place),
    }
}

/// One pass over each cascade; with marks and without, the list has the same parts.
#[inline(never)]
pub fn pair_sizes(ha: Header, a: &[u64], hb: Header, b: &[u64]) -> SizesAnswer {
    let mut total = share(ha);
    for (header, words) in [(ha, a), (hb, b)] {
        let number = header_refusal(header, words);
        if number != 0 {
            return sizes_refused(number, 0);
        }
        total = match sums(header.lines, words, total) {
            Ok(sums) => sums,
            Err(place) => return sizes_refused(7, place),
        };
    }
    match both_refusal(ha, hb) {
        0 => sizes_served(total, ha.junk),
        number => sizes_refused(number, 0),
    }
}

/// The header of a cascade without marks.
#[inline(always)]
pub fn unmarked(lines: u64) -> Header {
    Header {
        lines,
        constants: 0,
        values: 0,
        junk: 0,
    }
}

/// The tests 2, 14, 11, 6: the number of the first that holds, or 0.
#[inline(always)]
fn header_refusal(header: Header, words: &[u64]) -> u64 {
    let Header {
        lines,
        constants,
        values,
        junk,
    } = header;
    if lines.wrapping_sub(1) >= 64 {
        2
    } else if (constants | junk) & lines_from(lines) | values & !constants != 0 {
        14
    } else {
        shape_refusal(lines, words, LIMIT)
    }
}

/// The tests 8, 15 of two headers: the number of the first that holds, or 0.
#[inline(always)]
fn both_refusal(ha: Header, hb: Header) -> u64 {
    if ha.lines != hb.lines {
        8
    } else if ha != hb {
        15
    } else {
        0
    }
}

/// The number and the place of the first of the tests 2, 11, 6, 7 that holds, or 0 and 0.
#[inline(always)]
fn refusal(n: u64, words: &[u64], limit: usize) -> (u64, u64) {
    let number = shape_refusal(n, words, limit);
    if number != 0 {
        return (number, 0);
    }
    gates_refusal(n, words)
}

/// 7 and the place of the first gate that is none, or 0 and 0.
#[inline(always)]
fn gates_refusal(n: u64, words: &[u64]) -> (u64, u64) {
    let lines_from_n = lines_from(n);
    let gates: &[[u64; 3]] = words.as_chunks().0;
    match gates
        .iter()
        .position(|gate| !is_gate(*gate, n, lines_from_n))
    {
        Some(index) => (7, index as u64),
        None => (0, 0),
    }
}

/// The number and place of what is wrong with two cascades, or 0 and 0.
fn pair_refusal(na: u64, a: &[u64], nb: u64, b: &[u64]) -> (u64, u64) {
    for (n, words) in [(na, a), (nb, b)] {
        let (number, place) = refusal(n, words, LIMIT);
        if number != 0 {
            return (number, place);
        }
    }
    if na != nb {
        return (8, 0);
    }
    (0, 0)
}

/// The same of two cascades with headers.
fn headed_pair_refusal(ha: Header, a: &[u64], hb: Header, b: &[u64]) -> (u64, u64) {
    for (header, words) in [(ha, a), (hb, b)] {
        let number = header_refusal(header, words);
        if number != 0 {
            return (number, 0);
        }
        let (number, place) = gates_refusal(header.lines, words);
        if number != 0 {
            return (number, place);
        }
    }
    (both_refusal(ha, hb), 0)
}

/// Tests both, then copies A and B's gates from the last to the first.
#[inline(never)]
pub fn miter(na: u64, a: &[u64], nb: u64, b: &[u64], out: &mut [u64]) -> CountAnswer {
    let refused = |number, place| CountAnswer {
        number,
        place,
        gates: 0,
    };
    let (number, place) = pair_refusal(na, a, nb, b);
    if number != 0 {
        return refused(number, place);
    }
    let Some(out) = out.get_mut(..a.len() + b.len()) else {
        return refused(10, 0);
    };
    let (first, second) = out.split_at_mut(a.len());
    first.copy_from_slice(a);
    let gates: &[[u64; 3]] = b.as_chunks().0;
    for (to, from) in second.as_chunks_mut().0.iter_mut().rev().zip(gates) {
        *to = *from;
    }
    CountAnswer {
        number: 0,
        place: 0,
        gates: (out.len() / 3) as u64,
    }
}

/// The first two gates that match, and the masks on which they differ.
#[inline(always)]
fn search(gates: &[[u64; 3]]) -> Option<(usize, usize, u64, u64)> {
    for (i, &[positive, negative, target]) in gates.iter().enumerate() {
        let lines = positive | negative;
        let bit = 1u64.wrapping_shl(target as u32);
        for (after, &[other_positive, other_negative, other]) in gates[i + 1..].iter().enumerate() {
            if other == target {
                let (p, q) = (positive ^ other_positive, negative ^ other_negative);
                let differing = p | q;
                if differing & differing.wrapping_sub(1) == 0 {
                    return Some((i, i + 1 + after, p, q));
                }
            } else {
                let other_lines = other_positive | other_negative;
                let targets_read = (other_lines & bit) | (lines & 1u64.wrapping_shl(other as u32));
                let opposing = (positive & other_negative) | (negative & other_positive);
                if targets_read != 0 && opposing == 0 {
                    break;
                }
            }
        }
    }
    None
}

/// One step on gates: the places, the kind and the gates left.
#[inline(always)]
fn step_gates(gates: &mut [[u64; 3]]) -> Option<(usize, usize, u64, usize)> {
    let (i, j, p, q) = search(gates)?;
    let ([gp, gn, _], [hp, hn, target]) = (gates[i], gates[j]);
    gates.copy_within(i + 1..j, i);
    let (kind, next) = if p | q == 0 {
        (0, j - 1)
    } else if p == q {
        gates[j - 1] = [gp & hp, gn & hn, target];
        (1, j)
    } else {
        gates[j - 1] = [gp & hp | q, gn & hn | p, target];
        (2, j)
    };
    gates.copy_within(j + 1.., next);
    let left = next + gates.len() - (j + 1);
    gates[left..].fill([0; 3]);
    Some((i, j, kind, left))
}

#[inline(never)]
pub fn step(n: u64, words: &mut [u64]) -> StepAnswer {
    let (number, place) = refusal(n, words, MITER_LIMIT);
    let found = if number == 0 {
        step_gates(words.as_chunks_mut().0)
    } else {
        None
    };
    let (i, j, kind, gates) = found.unwrap_or((0, 0, 0, words.len() / 3));
    StepAnswer {
        number,
        place,
        found: found.is_some() as u64,
        i: i as u64,
        j: j as u64,
        kind,
        gates: gates as u64,
    }
}

#[inline(never)]
pub fn reduce(n: u64, words: &mut [u64]) -> ReduceAnswer {
    let (number, place) = refusal(n, words, MITER_LIMIT);
    let (mut left, mut pairs, mut merges) = (words.len() / 3, 0, 0);
    if number == 0 {
        let gates: &mut [[u64; 3]] = words.as_chunks_mut().0;
        while let Some((_, _, kind, now)) = step_gates(&mut gates[..left]) {
            left = now;
            pairs += (kind == 0) as u64;
            merges += (kind != 0) as u64;
        }
    }
    ReduceAnswer {
        number,
        place,
        gates: left as u64,
        pairs,
        merges,
    }
}

/// The output of gates that are known to be valid.
#[inline(always)]
fn output(gates: &[[u64; 3]], state: u64) -> u64 {
    gates
        .iter()
        .fold(state, |state, &[positive, negative, target]| {
            let fires = (state ^ positive) & (positive | negative) == 0;
            state ^ (fires as u64) << (target & 63)
        })
}

/// One state at a time, from 0 on.
#[inline(never)]
pub fn first_difference(ha: Header, a: &[u64], hb: Header, b: &[u64]) -> StateAnswer {
    let answer = |number, place, found, state| StateAnswer {
        number,
        place,
        found,
        state,
    };
    let (number, place) = headed_pair_refusal(ha, a, hb, b);
    if number != 0 {
        return answer(number, place, 0, 0);
    }
    if ha.lines > 16 {
        return answer(13, 0, 0, 0);
    }
    let (first, second) = (a.as_chunks().0, b.as_chunks().0);
    for state in 0..1 << ha.lines {
        let permitted = state & ha.constants == ha.values;
        if permitted && (output(first, state) ^ output(second, state)) & !ha.junk != 0 {
            return answer(0, 0, 1, state);
        }
    }
    answer(0, 0, 0, 0)
}

/// Tests the list, then narrows the masks of all gates by one state at a time.
#[inline(never)]
pub fn fault_masks(
    ha: Header,
    a: &[u64],
    hb: Header,
    b: &[u64],
    states: &[u64],
    out: &mut [u64],
) -> CountAnswer {
    let answer = |number, place, gates| CountAnswer {
        number,
        place,
        gates,
    };
    let (number, place) = headed_pair_refusal(ha, a, hb, b);
    if number != 0 {
        return answer(number, place, 0);
    }
    let lines_from_n = lines_from(ha.lines);
    // a constant has its value, and a line at n or above is 0
    let tied = ha.constants | lines_from_n;
    if let Some(index) = states.iter().position(|state| state & tied != ha.values) {
        return answer(9, index as u64, 0);
    }
    let (suspect, reference) = (a.as_chunks().0, b.as_chunks().0);
    let agree = |state: &u64| (output(suspect, *state) ^ output(reference, *state)) & !ha.junk == 0;
    if let Some(index) = states.iter().position(agree) {
        return answer(12, index as u64, 0);
    }
    let Some(out) = out.get_mut(..2 * suspect.len()) else {
        return answer(10, 0, 0);
    };
    let masks = out.as_chunks_mut().0;
    for (masks, [positive, negative, target]) in masks.iter_mut().zip(suspect) {
        *masks = [!(positive | negative | 1u64.wrapping_shl(*target as u32) | lines_from_n); 2];
    }
    for &state in states {
        let mut state = state;
        for ([first, second], &[positive, negative, target]) in masks.iter_mut().zip(suspect) {
            let fires = ((state ^ positive) & (positive | negative) == 0) as u64;
            let all = fires.wrapping_neg();
            *first &= !state & all;
            *second &= state & all;
            state ^= fires << (target & 63);
        }
    }
    answer(0, 0, suspect.len() as u64)
}

/// The number of words, or a refusal.
fn words_answer(number: u64, place: usize, words: usize) -> WordsAnswer {
    WordsAnswer {
        number,
        place: place as u64,
        words: words as u64,
    }
}

#[inline(never)]
pub fn widen(words: &[i16], out: &mut [i32]) -> WordsAnswer {
    let Some(out) = out.get_mut(..words.len()) else {
        return words_answer(10, 0, 0);
    };
    for (to, &word) in out.iter_mut().zip(words) {
        *to = i32::from(word);
    }
    words_answer(0, 0, words.len())
}

/// Tests all words without an end at the first that does not fit, so that several are tested at once, and
/// then copies them.
#[inline(never)]
pub fn narrow(words: &[i32], out: &mut [i16]) -> WordsAnswer {
    let fits = |word: &i32| i16::try_from(*word).is_ok();
    if !words.iter().fold(true, |all, word| all & fits(word)) {
        let place = words.iter().position(|word| !fits(word)).unwrap();
        return words_answer(16, place, 0);
    }
    let Some(out) = out.get_mut(..words.len()) else {
        return words_answer(10, 0, 0);
    };
    for (to, &word) in out.iter_mut().zip(words) {
        *to = word as i16;
    }
    words_answer(0, 0, words.len())
}
