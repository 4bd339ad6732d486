//! The job of the program `tomiter` in plain Rust, written for speed.

#[allow(dead_code)]
#[path = "../tests/capi.rs"]
mod capi;
#[allow(dead_code)]
mod plain;
#[allow(dead_code)]
mod plain_emit;
#[allow(dead_code)]
mod plain_file;

use capi::{Header, ReadAnswer};
use std::hint::black_box;
use std::io::{Read, Write};

const MOST_BYTES: usize = 65_536;
const MOST_GATES: usize = 1_024;
const MOST_WORDS: usize = 16_384;
const DIGITS: &[u8; 200] = b"0001020304050607080910111213141516171819202122232425262728293031323334353637383940414243444546474849\
5051525354555657585960616263646566676869707172737475767778798081828384858687888990919293949596979899";

/// The decimal text of a number below 100,000.
#[inline(always)]
fn put_number(out: &mut Vec<u8>, k: u64) {
    let (high, low) = (k / 100, 2 * (k % 100) as usize);
    if high >= 100 {
        out.push(b'0' + (high / 100) as u8);
    }
    if high >= 10 {
        let digits = 2 * (high % 100) as usize;
        out.extend_from_slice(&DIGITS[digits..digits + 2]);
    } else if high > 0 {
        out.push(b'0' + high as u8);
    }
    if high > 0 || k >= 10 {
        out.extend_from_slice(&DIGITS[low..low + 2]);
    } else {
        out.push(DIGITS[low + 1]);
    }
}

fn put_list(out: &mut Vec<u8>, variables: u64, clauses: u64, mut words: &[i32]) {
    out.extend_from_slice(b"p cnf ");
    put_number(out, variables);
    out.push(b' ');
    put_number(out, clauses);
    out.push(b'\n');
    while let [kind, count, rest @ ..] = words {
        if *kind == 1 {
            out.push(b'x');
        }
        let (literals, later) = rest.split_at(*count as usize);
        for literal in literals {
            if *literal < 0 {
                out.push(b'-');
            }
            put_number(out, u64::from(literal.unsigned_abs()));
            out.push(b' ');
        }
        // ` 0` closes, also where there is no literal
        out.extend_from_slice(if literals.is_empty() { b" 0\n" } else { b"0\n" });
        words = later;
    }
}

fn header(read: &ReadAnswer) -> Header {
    Header {
        lines: read.lines,
        constants: read.constants,
        values: read.values,
        junk: read.junk,
    }
}

/// The clauses, or a refusal's number, file and place.
fn listed(input: &[u8], out: &mut Vec<u8>) -> Result<(), (u64, u64, u64)> {
    if input.len() > MOST_BYTES {
        return Err((10, 0, 0));
    }
    let mut words = [[0; 3 * MOST_GATES]; 2];
    let first = plain_file::read(input, &mut words[0]);
    if first.number != 0 {
        return Err((first.number, 1, first.place));
    }
    let input = &input[first.taken as usize..];
    let second = plain_file::read(input, &mut words[1]);
    if second.number != 0 {
        return Err((second.number, 2, second.place));
    }
    if second.taken as usize != input.len() {
        let marks = second.constants.count_ones() + second.junk.count_ones();
        return Err((1, 2, u64::from(marks) + second.gates + 2));
    }
    let (a, b) = (3 * first.gates as usize, 3 * second.gates as usize);
    let (a, b) = (&words[0][..a], &words[1][..b]);
    let mut clauses = [0; MOST_WORDS];
    let sizes = plain_emit::pair_emit(header(&first), a, header(&second), b, &mut clauses);
    if sizes.number != 0 {
        return Err((sizes.number, 0, 0));
    }
    put_list(
        out,
        sizes.variables,
        sizes.clauses,
        &clauses[..sizes.words as usize],
    );
    Ok(())
}

/// An empty buffer whose pages have been written, as those of the library's program are at its start.
fn buffer(bytes: usize) -> Vec<u8> {
    let mut buffer = black_box(vec![1; bytes]);
    buffer.clear();
    buffer
}

/// Writes the pages of the stack that the job will use.
#[inline(never)]
fn touch_stack() {
    black_box([1u8; 200_000]);
}

fn main() {
    touch_stack();
    let mut input = buffer(MOST_BYTES + 1);
    std::io::stdin()
        .lock()
        .take(MOST_BYTES as u64 + 1)
        .read_to_end(&mut input)
        .unwrap();
    let mut out = buffer(131_072);
    if let Err((number, file, place)) = listed(&input, &mut out) {
        out.extend_from_slice(format!("refused\t{number}\t{file}\t{place}\n").as_bytes());
    }
    std::io::stdout().lock().write_all(&out).unwrap();
}
