//! Reading and writing of cascade files in plain Rust, written for speed, with the same answers as the C interface.

use crate::capi::{Header, ReadAnswer, WriteAnswer};
use crate::plain::{unmarked, LIMIT};

fn read_refusal(number: u64, place: u64) -> ReadAnswer {
    ReadAnswer {
        number,
        place,
        lines: 0,
        constants: 0,
        values: 0,
        junk: 0,
        gates: 0,
        taken: 0,
    }
}

#[inline(always)]
fn stops(text: &[u8], at: usize) -> bool {
    match text.get(at) {
        None | Some(b'\t' | b'\n') => true,
        Some(_) => false,
    }
}

/// The number at a position and the position after it.
#[inline(always)]
fn number(text: &[u8], at: usize) -> Option<(u64, usize)> {
    let first = text.get(at)?.wrapping_sub(b'0');
    if first > 9 {
        return None;
    }
    if stops(text, at + 1) {
        return Some((first as u64, at + 1));
    }
    let second = text[at + 1].wrapping_sub(b'0');
    if first == 0 || second > 9 || !stops(text, at + 2) {
        return None;
    }
    Some((10 * first as u64 + second as u64, at + 2))
}

/// The line of a mark at a position, above those of its group, and the position after it; else a number.
#[inline(always)]
fn mark(text: &[u8], at: usize, n: u64, group: u64) -> Result<(u64, usize), u64> {
    let (line, next) = number(text, at).ok_or(1u64)?;
    if line >= n || group >> line != 0 {
        return Err(14);
    }
    Ok((line, next))
}

/// The mark lines from a position on: the masks, their number and the position after them; else the
/// number and the place.
#[inline(never)]
fn marks(text: &[u8], mut at: usize, header: &mut Header) -> Result<(u64, usize), (u64, u64)> {
    let mut count = 0;
    while text[at..].starts_with(b"const\t") {
        let place = count + 1;
        let (line, next) =
            mark(text, at + 6, header.lines, header.constants).map_err(|number| (number, place))?;
        let value = match text.get(next..next + 3) {
            Some(b"\t0\n") => 0,
            Some(b"\t1\n") => 1,
            _ => return Err((1, place)),
        };
        header.constants |= 1 << line;
        header.values |= value << line;
        at = next + 3;
        count = place;
    }
    while text[at..].starts_with(b"junk\t") {
        let place = count + 1;
        let (line, next) =
            mark(text, at + 5, header.lines, header.junk).map_err(|number| (number, place))?;
        if text.get(next) != Some(&b'\n') {
            return Err((1, place));
        }
        header.junk |= 1 << line;
        at = next + 1;
        count = place;
    }
    Ok((count, at))
}

/// The position after the gate line whose target stands at a position; else a number.
#[inline(always)]
fn gate(text: &[u8], at: usize, n: u64) -> Result<usize, u64> {
    let (target, mut at) = number(text, at).ok_or(1u64)?;
    if target >= n {
        return Err(3);
    }
    let mut lines = 0u64;
    let mut low = 0;
    let mut rising = true;
    while text.get(at) == Some(&b'\t') {
        if !matches!(text.get(at + 1), Some(b'+' | b'-')) {
            return Err(1);
        }
        let (line, next) = number(text, at + 2).ok_or(1u64)?;
        if line >= n {
            return Err(3);
        }
        lines |= 1 << line;
        rising &= low <= line;
        low = line + 1;
        at = next;
    }
    if at >= text.len() {
        return Err(1);
    }
    if lines >> target & 1 != 0 {
        return Err(4);
    }
    if !rising {
        return Err(5);
    }
    Ok(at + 1)
}

/// The number at a position of a text that was judged good, and the position after it.
#[inline(always)]
fn good_number(text: &[u8], at: usize) -> (u64, usize) {
    let first = (text[at] - b'0') as u64;
    let second = text[at + 1].wrapping_sub(b'0') as u64;
    if second > 9 {
        (first, at + 1)
    } else {
        (10 * first + second, at + 2)
    }
}

/// The gates of a text that was judged good, from a position on, tested no more.
fn fill(text: &[u8], mut at: usize, out: &mut [u64]) {
    for gate in out.as_chunks_mut::<3>().0 {
        let (target, mut next) = good_number(text, at + 2);
        let mut masks = [0u64; 2];
        while text[next] == b'\t' {
            let negative = (text[next + 1] == b'-') as usize;
            let (line, after) = good_number(text, next + 2);
            masks[negative] |= 1 << (line & 63);
            next = after;
        }
        *gate = [masks[0], masks[1], target];
        at = next + 1;
    }
}

/// One pass judges and one fills, with no scratch, as in the library.
pub fn read(text: &[u8], out: &mut [u64]) -> ReadAnswer {
    if !text.starts_with(b"lines\t") {
        return read_refusal(1, 0);
    }
    let Some((n, at)) = number(text, 6) else {
        return read_refusal(1, 0);
    };
    if n.wrapping_sub(1) >= 64 {
        return read_refusal(2, 0);
    }
    if text.get(at) != Some(&b'\n') {
        return read_refusal(1, 0);
    }
    let mut header = unmarked(n);
    let (count, start) = match marks(text, at + 1, &mut header) {
        Ok(found) => found,
        Err((number, place)) => return read_refusal(number, place),
    };
    let mut at = start;
    let mut gates = 0;
    while !text[at..].starts_with(b"end\n") {
        let place = count + gates as u64 + 1;
        if !text[at..].starts_with(b"g\t") {
            return read_refusal(1, place);
        }
        if gates == LIMIT {
            return read_refusal(6, place);
        }
        match gate(text, at + 2, n) {
            Err(number) => return read_refusal(number, place),
            Ok(next) => {
                at = next;
                gates += 1;
            }
        }
    }
    if out.len() < 3 * gates {
        return read_refusal(10, 0);
    }
    fill(text, start, &mut out[..3 * gates]);
    ReadAnswer {
        number: 0,
        place: 0,
        lines: n,
        constants: header.constants,
        values: header.values,
        junk: header.junk,
        gates: gates as u64,
        taken: at as u64 + 4,
    }
}

// ---- writing

const DIGITS: &[u8; 200] = b"0001020304050607080910111213141516171819202122232425262728293031323334353637383940414243444546474849\
5051525354555657585960616263646566676869707172737475767778798081828384858687888990919293949596979899";

#[inline(always)]
fn put_number(out: &mut [u8], at: usize, k: u64) -> usize {
    let digits = 2 * k as usize;
    if k < 10 {
        out[at] = DIGITS[digits + 1];
        at + 1
    } else {
        out[at] = DIGITS[digits];
        out[at + 1] = DIGITS[digits + 1];
        at + 2
    }
}

fn write_refusal(number: u64, place: u64) -> WriteAnswer {
    WriteAnswer {
        number,
        place,
        written: 0,
    }
}

/// The bytes of the mark lines.
#[inline(never)]
fn marks_size(constants: u64, junk: u64) -> usize {
    let size = |mask: u64, bytes| bytes * mask.count_ones() + (mask >> 10).count_ones();
    (size(constants, 10) + size(junk, 7)) as usize
}

/// The lines of a mask, each after a word, and with its bit of `values` where there are such.
#[inline(never)]
fn put_marks(
    out: &mut [u8],
    mut at: usize,
    word: &[u8],
    mut lines: u64,
    values: Option<u64>,
) -> usize {
    while lines != 0 {
        let line = lines.trailing_zeros() as u64;
        out[at..at + word.len()].copy_from_slice(word);
        at = put_number(out, at + word.len(), line);
        if let Some(values) = values {
            out[at] = b'\t';
            out[at + 1] = b'0' + (values >> line & 1) as u8;
            at += 2;
        }
        out[at] = b'\n';
        at += 1;
        lines &= lines - 1;
    }
    at
}

/// The gate lines.
#[inline(never)]
fn put_gates(out: &mut [u8], mut at: usize, words: &[u64]) -> usize {
    for gate in words.chunks_exact(3) {
        let (positive, target) = (gate[0], gate[2]);
        out[at..at + 2].copy_from_slice(b"g\t");
        at = put_number(out, at + 2, target);
        let mut rest = positive | gate[1];
        while rest != 0 {
            let line = rest.trailing_zeros() as u64;
            out[at] = b'\t';
            out[at + 1] = if positive >> line & 1 != 0 {
                b'+'
            } else {
                b'-'
            };
            at = put_number(out, at + 2, line);
            rest &= rest - 1;
        }
        out[at] = b'\n';
        at += 1;
    }
    at
}

pub fn write(header: Header, words: &[u64], out: &mut [u8]) -> WriteAnswer {
    let Header {
        lines: n,
        constants,
        values,
        junk,
    } = header;
    if n.wrapping_sub(1) >= 64 {
        return write_refusal(2, 0);
    }
    let lines_from_n = !(u64::MAX >> (64 - n));
    if (constants | junk) & lines_from_n | values & !constants != 0 {
        return write_refusal(14, 0);
    }
    if words.len() % 3 != 0 {
        return write_refusal(11, 0);
    }
    if words.len() > 3 * LIMIT {
        return write_refusal(6, 0);
    }
    let mut size = 12 + (n >= 10) as usize;
    for (index, gate) in words.chunks_exact(3).enumerate() {
        let (positive, negative, target) = (gate[0], gate[1], gate[2]);
        let all = positive | negative;
        let forbidden = lines_from_n | 1u64.wrapping_shl(target as u32);
        if target >= n || (all & forbidden) | (positive & negative) != 0 {
            return write_refusal(7, index as u64);
        }
        size += 4 + (target >= 10) as usize;
        size += (3 * all.count_ones() + (all >> 10).count_ones()) as usize;
    }
    size += marks_size(constants, junk);
    if out.len() < size {
        return write_refusal(10, 0);
    }
    out[..6].copy_from_slice(b"lines\t");
    let mut at = put_number(out, 6, n);
    out[at] = b'\n';
    at = put_marks(out, at + 1, b"const\t", constants, Some(values));
    at = put_marks(out, at, b"junk\t", junk, None);
    at = put_gates(out, at, words);
    out[at..at + 4].copy_from_slice(b"end\n");
    WriteAnswer {
        number: 0,
        place: 0,
        written: at as u64 + 4,
    }
}
