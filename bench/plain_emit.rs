//! Emission in plain Rust, written for speed: each gate's controls once, by set bits, and each word once.

use crate::capi::{Header, SizesAnswer};
use crate::plain;
use std::array;

/// The current variable of each line.
type Current = [i32; 64];

fn inputs() -> Current {
    array::from_fn(|line| line as i32 + 1)
}

/// The sizes first, then the clauses, where there is room.
#[inline(never)]
pub fn emit(n: u64, words: &[u64], out: &mut [i32]) -> SizesAnswer {
    let answer = plain::sizes(n, words);
    if answer.number != 0 {
        return answer;
    }
    let Some(mut rest) = out.get_mut(..answer.words as usize) else {
        return plain::sizes_refused(10, 0);
    };
    let mut current = inputs();
    let mut used = n as i32;
    rest = put_gates(words.as_chunks().0.iter(), &mut current, &mut used, rest);
    put_differences(plain::unmarked(n), &inputs(), &current, used, rest);
    answer
}

/// The same of two cascades: with marks each from the inputs, without marks the second reversed and from
/// the first's last variables.
#[inline(never)]
pub fn pair_emit(ha: Header, a: &[u64], hb: Header, b: &[u64], out: &mut [i32]) -> SizesAnswer {
    let answer = plain::pair_sizes(ha, a, hb, b);
    if answer.number != 0 {
        return answer;
    }
    let Some(mut rest) = out.get_mut(..answer.words as usize) else {
        return plain::sizes_refused(10, 0);
    };
    let mut constants = ha.constants;
    while constants != 0 {
        let line = constants.trailing_zeros();
        let input = line as i32 + 1;
        let one = ha.values >> line & 1 == 1;
        rest = put(rest, [0, 1, if one { input } else { -input }]);
        constants &= constants - 1;
    }
    let (mut first, mut second) = (inputs(), inputs());
    let mut used = ha.lines as i32;
    let [of_a, of_b] = [a, b].map(|words| words.as_chunks().0.iter());
    rest = put_gates(of_a, &mut first, &mut used, rest);
    if ha.constants | ha.junk != 0 {
        rest = put_gates(of_b, &mut second, &mut used, rest);
    } else {
        rest = put_gates(of_b.rev(), &mut first, &mut used, rest);
        (first, second) = (second, first);
    }
    put_differences(ha, &first, &second, used, rest);
    answer
}

/// The clauses of the gates; what is left.
#[inline(never)]
fn put_gates<'a, 'g>(
    gates: impl Iterator<Item = &'g [u64; 3]>,
    current: &mut Current,
    variables: &mut i32,
    mut rest: &'a mut [i32],
) -> &'a mut [i32] {
    let mut used = *variables;
    for &[positive, negative, target] in gates {
        let target = target as usize % 64;
        let v = current[target];
        let lines = positive | negative;
        match lines.count_ones() as usize {
            0 => {
                rest = put(rest, [1, 2, used + 1, v]);
                used += 1;
            }
            1 => {
                let c = literal(positive, lines, current);
                rest = put(rest, [1, 3, -(used + 1), v, c]);
                used += 1;
            }
            k => {
                let p = used + 1;
                rest = put(rest, [0, k as i32 + 1, p]);
                let (long, after) = rest.split_at_mut(k);
                let (short, after) = after.split_at_mut(4 * k);
                put_controls(positive, lines, current, p, long, short.as_chunks_mut().0);
                rest = put(after, [1, 3, -(p + 1), v, p]);
                used += 2;
            }
        }
        current[target] = used;
    }
    *variables = used;
    rest
}

/// The words at the start; what is left.
#[inline(always)]
fn put<const N: usize>(out: &mut [i32], words: [i32; N]) -> &mut [i32] {
    let (front, rest) = out.split_first_chunk_mut().unwrap();
    *front = words;
    rest
}

/// The literal c of the lowest of the lines.
#[inline(always)]
fn literal(positive: u64, lines: u64, current: &Current) -> i32 {
    let line = lines.trailing_zeros();
    let variable = current[line as usize % 64];
    if positive >> (line % 64) & 1 == 1 {
        variable
    } else {
        -variable
    }
}

/// Every -c, and every OR (-p, c).
#[inline(always)]
fn put_controls(
    positive: u64,
    mut lines: u64,
    current: &Current,
    p: i32,
    long: &mut [i32],
    short: &mut [[i32; 4]],
) {
    for (to, clause) in long.iter_mut().zip(short) {
        let c = literal(positive, lines, current);
        *to = -c;
        *clause = [0, 2, -p, c];
        lines &= lines.wrapping_sub(1);
    }
}

/// The clauses of the lines that count, and the OR of their d. The two variables of a line are the same
/// where no gate targets it.
#[inline(always)]
fn put_differences(header: Header, first: &Current, second: &Current, used: i32, out: &mut [i32]) {
    let mut rest = out;
    let mut d = used;
    for line in 0..header.lines as usize {
        if header.junk >> (line % 64) & 1 == 1 {
            continue;
        }
        d += 1;
        let (one, other) = (first[line % 64], second[line % 64]);
        rest = if one != other {
            put(rest, [1, 3, -d, one, other])
        } else {
            put(rest, [0, 1, -d])
        };
    }
    let rest = put(rest, [0, d - used]);
    for (to, d) in rest.iter_mut().zip(used + 1..) {
        *to = d;
    }
}
