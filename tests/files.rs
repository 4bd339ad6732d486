//! Texts of cascade files: rows worked by hand from document 01 and from T-03, good texts, and damaged ones.

use crate::inputs;
use crate::random::Random;
use crate::reference::Header;

/// What a row must answer: served with header, gates and bytes, or refused with number and place.
#[derive(Clone, Copy, Debug)]
pub enum Wanted {
    Served(Header, u64, u64),
    Refused(u64, u64),
}

use Wanted::{Refused, Served};

/// The header of a file without marks.
const fn lines(lines: u64) -> Header {
    marked(lines, 0, 0, 0)
}

const fn marked(lines: u64, constants: u64, values: u64, junk: u64) -> Header {
    Header {
        lines,
        constants,
        values,
        junk,
    }
}

/// Rows by hand. Each name is a class that must occur.
pub const ROWS: &[(&str, &[u8], Wanted)] = &[
    ("row: no gates", b"lines\t2\nend\n", Served(lines(2), 0, 12)),
    (
        "row: lines 1",
        b"lines\t1\ng\t0\nend\n",
        Served(lines(1), 1, 16),
    ),
    (
        "row: lines 64",
        b"lines\t64\ng\t63\t+0\t-9\t+10\t-62\nend\n",
        Served(lines(64), 1, 32),
    ),
    (
        "row: bytes after end",
        b"lines\t2\nend\nlines\t2\nend\n",
        Served(lines(2), 0, 12),
    ),
    (
        "row: no LF after the next word",
        b"lines\t2\nend\ng",
        Served(lines(2), 0, 12),
    ),
    ("row: empty text", b"", Refused(1, 0)),
    ("row: only LF", b"\n", Refused(1, 0)),
    ("row: lines 0", b"lines\t0\nend\n", Refused(2, 0)),
    ("row: lines 65", b"lines\t65\nend\n", Refused(2, 0)),
    ("row: lines 99", b"lines\t99\nend\n", Refused(2, 0)),
    ("row: lines 100", b"lines\t100\nend\n", Refused(1, 0)),
    ("row: lines 02", b"lines\t02\nend\n", Refused(1, 0)),
    ("row: lines 00", b"lines\t00\nend\n", Refused(1, 0)),
    (
        "row: lines 65 and a field",
        b"lines\t65\tx\nend\n",
        Refused(2, 0),
    ),
    (
        "row: lines 2 and a field",
        b"lines\t2\tx\nend\n",
        Refused(1, 0),
    ),
    (
        "row: lines 2 and an empty field",
        b"lines\t2\t\nend\n",
        Refused(1, 0),
    ),
    ("row: lines 65 without LF", b"lines\t65", Refused(2, 0)),
    ("row: lines 2 without LF", b"lines\t2", Refused(1, 0)),
    ("row: lines without number", b"lines\nend\n", Refused(1, 0)),
    ("row: lines with blank", b"lines 2\nend\n", Refused(1, 0)),
    ("row: line for lines", b"line\t2\nend\n", Refused(1, 0)),
    ("row: CR", b"lines\t2\r\nend\n", Refused(1, 0)),
    ("row: no line after lines", b"lines\t2\n", Refused(1, 1)),
    ("row: end without LF", b"lines\t2\nend", Refused(1, 1)),
    ("row: end and a tab", b"lines\t2\nend\t\n", Refused(1, 1)),
    ("row: ends", b"lines\t2\nends\n", Refused(1, 1)),
    ("row: empty line", b"lines\t2\n\nend\n", Refused(1, 1)),
    (
        "row: lines twice",
        b"lines\t2\nlines\t2\nend\n",
        Refused(1, 1),
    ),
    ("row: g without tab", b"lines\t2\ng\nend\n", Refused(1, 1)),
    (
        "row: g without number",
        b"lines\t2\ng\t\nend\n",
        Refused(1, 1),
    ),
    ("row: gg", b"lines\t2\ngg\t0\nend\n", Refused(1, 1)),
    (
        "row: end missing after a gate",
        b"lines\t2\ng\t0\n",
        Refused(1, 2),
    ),
    (
        "row: end without LF after a gate",
        b"lines\t2\ng\t0\nend",
        Refused(1, 2),
    ),
    ("row: target n", b"lines\t4\ng\t4\nend\n", Refused(3, 1)),
    (
        "row: target 9 before a bad field",
        b"lines\t4\ng\t9\t?\nend\n",
        Refused(3, 1),
    ),
    (
        "row: a bad field before control 9",
        b"lines\t4\ng\t0\t?\t+9\nend\n",
        Refused(1, 1),
    ),
    (
        "row: control 9 before a bad field",
        b"lines\t4\ng\t0\t+9\t?\nend\n",
        Refused(3, 1),
    ),
    ("row: target 100", b"lines\t4\ng\t100\nend\n", Refused(1, 1)),
    (
        "row: control 100",
        b"lines\t4\ng\t0\t+100\nend\n",
        Refused(1, 1),
    ),
    ("row: target 01", b"lines\t4\ng\t01\nend\n", Refused(1, 1)),
    (
        "row: control 01",
        b"lines\t4\ng\t0\t+01\nend\n",
        Refused(1, 1),
    ),
    (
        "row: sign alone",
        b"lines\t4\ng\t0\t+\nend\n",
        Refused(1, 1),
    ),
    ("row: no sign", b"lines\t4\ng\t0\t1\nend\n", Refused(1, 1)),
    (
        "row: empty control",
        b"lines\t4\ng\t0\t\t+1\nend\n",
        Refused(1, 1),
    ),
    (
        "row: target its control, without LF",
        b"lines\t2\ng\t0\t+0",
        Refused(1, 1),
    ),
    (
        "row: target its control",
        b"lines\t2\ng\t0\t+0\nend\n",
        Refused(4, 1),
    ),
    (
        "row: target late among controls that do not rise",
        b"lines\t9\ng\t2\t+5\t+1\t-2\nend\n",
        Refused(4, 1),
    ),
    (
        "row: a line in both signs",
        b"lines\t9\ng\t0\t+3\t-3\nend\n",
        Refused(5, 1),
    ),
    (
        "row: a line twice",
        b"lines\t9\ng\t0\t+3\t+3\nend\n",
        Refused(5, 1),
    ),
    (
        "row: falling",
        b"lines\t9\ng\t0\t+1\t+2\t-8\t+7\nend\n",
        Refused(5, 1),
    ),
    (
        "row: falling, then control n",
        b"lines\t9\ng\t0\t+3\t+2\t+9\nend\n",
        Refused(3, 1),
    ),
    (
        "row: falling without LF",
        b"lines\t9\ng\t0\t+3\t+2",
        Refused(1, 1),
    ),
    (
        "row: second gate",
        b"lines\t9\ng\t0\ng\t1\t+2\t+1\nend\n",
        Refused(4, 2),
    ),
    (
        "row: a constant",
        b"lines\t2\nconst\t1\t1\nend\n",
        Served(marked(2, 2, 2, 0), 0, 22),
    ),
    (
        "row: a junk line, every line junk",
        b"lines\t1\njunk\t0\nend\n",
        Served(marked(1, 0, 0, 1), 0, 19),
    ),
    (
        "row: constants, junk lines and a gate, a line both",
        b"lines\t64\nconst\t0\t0\nconst\t9\t1\nconst\t63\t1\njunk\t0\njunk\t62\ng\t63\t+0\nend\n",
        Served(
            marked(64, 1 | 1 << 9 | 1 << 63, 1 << 9 | 1 << 63, 1 | 1 << 62),
            1,
            67,
        ),
    ),
    (
        "row: const n",
        b"lines\t4\nconst\t4\t0\nend\n",
        Refused(14, 1),
    ),
    ("row: junk n", b"lines\t4\njunk\t4\nend\n", Refused(14, 1)),
    (
        "row: const 99 without a value",
        b"lines\t4\nconst\t99\nend\n",
        Refused(14, 1),
    ),
    (
        "row: const 3 without a value",
        b"lines\t4\nconst\t3\nend\n",
        Refused(1, 1),
    ),
    (
        "row: const n with value 2",
        b"lines\t4\nconst\t4\t2\nend\n",
        Refused(14, 1),
    ),
    (
        "row: const 3 with value 2",
        b"lines\t4\nconst\t3\t2\nend\n",
        Refused(1, 1),
    ),
    (
        "row: value 00",
        b"lines\t4\nconst\t3\t00\nend\n",
        Refused(1, 1),
    ),
    (
        "row: value 01",
        b"lines\t4\nconst\t3\t01\nend\n",
        Refused(1, 1),
    ),
    (
        "row: value 10",
        b"lines\t4\nconst\t3\t10\nend\n",
        Refused(1, 1),
    ),
    (
        "row: value +1",
        b"lines\t4\nconst\t3\t+1\nend\n",
        Refused(1, 1),
    ),
    (
        "row: empty value",
        b"lines\t4\nconst\t3\t\nend\n",
        Refused(1, 1),
    ),
    (
        "row: const and a field",
        b"lines\t4\nconst\t3\t0\t0\nend\n",
        Refused(1, 1),
    ),
    (
        "row: const and an empty field",
        b"lines\t4\nconst\t3\t0\t\nend\n",
        Refused(1, 1),
    ),
    (
        "row: junk and a field",
        b"lines\t4\njunk\t3\t0\nend\n",
        Refused(1, 1),
    ),
    (
        "row: junk n and a field",
        b"lines\t4\njunk\t4\t0\nend\n",
        Refused(14, 1),
    ),
    (
        "row: const without tab",
        b"lines\t4\nconst\nend\n",
        Refused(1, 1),
    ),
    (
        "row: junk without tab",
        b"lines\t4\njunk\nend\n",
        Refused(1, 1),
    ),
    (
        "row: const without number",
        b"lines\t4\nconst\t\t0\nend\n",
        Refused(1, 1),
    ),
    (
        "row: junk without number",
        b"lines\t4\njunk\t\nend\n",
        Refused(1, 1),
    ),
    (
        "row: const with blank",
        b"lines\t4\nconst 3\t0\nend\n",
        Refused(1, 1),
    ),
    (
        "row: constant for const",
        b"lines\t4\nconstant\t3\t0\nend\n",
        Refused(1, 1),
    ),
    (
        "row: const 03",
        b"lines\t4\nconst\t03\t0\nend\n",
        Refused(1, 1),
    ),
    (
        "row: const 100",
        b"lines\t4\nconst\t100\t0\nend\n",
        Refused(1, 1),
    ),
    ("row: junk 09", b"lines\t4\njunk\t09\nend\n", Refused(1, 1)),
    (
        "row: const without LF",
        b"lines\t4\nconst\t3\t0",
        Refused(1, 1),
    ),
    (
        "row: const n without LF",
        b"lines\t4\nconst\t4\t0",
        Refused(14, 1),
    ),
    ("row: junk without LF", b"lines\t4\njunk\t3", Refused(1, 1)),
    (
        "row: const twice",
        b"lines\t4\nconst\t2\t1\nconst\t2\t1\nend\n",
        Refused(14, 2),
    ),
    (
        "row: const twice with both values",
        b"lines\t4\nconst\t2\t1\nconst\t2\t0\nend\n",
        Refused(14, 2),
    ),
    (
        "row: const falling",
        b"lines\t4\nconst\t2\t0\nconst\t3\t0\nconst\t0\t1\nend\n",
        Refused(14, 3),
    ),
    (
        "row: const falling with value 2",
        b"lines\t4\nconst\t2\t0\nconst\t0\t2\nend\n",
        Refused(14, 2),
    ),
    (
        "row: junk twice",
        b"lines\t4\njunk\t0\njunk\t0\nend\n",
        Refused(14, 2),
    ),
    (
        "row: junk falling",
        b"lines\t4\njunk\t3\njunk\t2\nend\n",
        Refused(14, 2),
    ),
    (
        "row: junk below a constant",
        b"lines\t4\nconst\t3\t0\njunk\t0\nend\n",
        Served(marked(4, 8, 0, 1), 0, 29),
    ),
    (
        "row: const after junk",
        b"lines\t4\nconst\t0\t0\njunk\t1\nconst\t2\t0\nend\n",
        Refused(1, 3),
    ),
    (
        "row: const after junk 0",
        b"lines\t4\njunk\t0\nconst\t1\t0\nend\n",
        Refused(1, 2),
    ),
    (
        "row: const n after junk",
        b"lines\t4\njunk\t1\nconst\t4\t0\nend\n",
        Refused(1, 2),
    ),
    (
        "row: const after a gate",
        b"lines\t4\ng\t0\nconst\t2\t0\nend\n",
        Refused(1, 2),
    ),
    (
        "row: junk after a gate",
        b"lines\t4\njunk\t0\ng\t0\njunk\t1\nend\n",
        Refused(1, 3),
    ),
    (
        "row: junk n after a gate",
        b"lines\t4\ng\t0\njunk\t4\nend\n",
        Refused(1, 2),
    ),
    (
        "row: const before lines",
        b"const\t0\t0\nlines\t4\nend\n",
        Refused(1, 0),
    ),
    (
        "row: target n after marks",
        b"lines\t4\nconst\t0\t0\njunk\t1\ng\t4\nend\n",
        Refused(3, 3),
    ),
    (
        "row: second gate after marks, target its control",
        b"lines\t4\nconst\t0\t0\njunk\t1\ng\t0\ng\t1\t+1\nend\n",
        Refused(4, 4),
    ),
    (
        "row: no line after marks",
        b"lines\t4\njunk\t1\n",
        Refused(1, 2),
    ),
    ("row: NUL", b"lines\t2\0\nend\n", Refused(1, 0)),
    ("row: 0xff", b"lines\t2\n\xff\n", Refused(1, 1)),
];

/// Texts of `marks` after `lines`, of `gates` gate lines, then of `last`.
fn long_text(marks: &[u8], gates: usize, last: &[u8]) -> Vec<u8> {
    let mut text = b"lines\t64\n".to_vec();
    text.extend(marks);
    for i in 0..gates {
        text.extend(format!("g\t{}\t-{}\n", i % 63, 63).bytes());
    }
    text.extend(last);
    text
}

/// 128 lines: each of 64 lines constant, the odd ones with value 1, and each junk.
fn all_marks() -> Vec<u8> {
    let constants = (0..64).map(|line| format!("const\t{line}\t{}\n", line % 2));
    let junk = (0..64).map(|line| format!("junk\t{line}\n"));
    constants.chain(junk).collect::<String>().into_bytes()
}

/// Rows around the limit of gate lines, and one with more control fields than lines.
pub fn long_rows() -> Vec<(&'static str, Vec<u8>, Wanted)> {
    const MOST: u64 = 16_384;
    let text = |marks: &[u8], gates: u64, last: &[u8]| long_text(marks, gates as usize, last);
    let full = text(b"", MOST, b"end\n");
    let bytes = full.len() as u64;
    let all = all_marks();
    let full_marked = text(&all, MOST, b"end\n");
    let marked_bytes = full_marked.len() as u64;
    let all_header = marked(64, u64::MAX, 0xaaaa_aaaa_aaaa_aaaa, u64::MAX);
    let mut many = b"lines\t64\ng\t63".to_vec();
    for i in 0..200 {
        many.extend(format!("\t+{}", i % 63).bytes());
    }
    many.extend(b"\nend\n");
    vec![
        ("row: 16,384 gates", full, Served(lines(64), MOST, bytes)),
        (
            "row: 16,385th gate line",
            text(b"", MOST + 1, b"end\n"),
            Refused(6, MOST + 1),
        ),
        (
            "row: 16,385th gate line of the wrong form",
            text(b"", MOST, b"g\t?\nend\n"),
            Refused(6, MOST + 1),
        ),
        (
            "row: 16,385th `g` tab without LF",
            text(b"", MOST, b"g\t"),
            Refused(6, MOST + 1),
        ),
        (
            "row: 16,385th `g` without tab",
            text(b"", MOST, b"g"),
            Refused(1, MOST + 1),
        ),
        (
            "row: 16,384 gates without end",
            text(b"", MOST, b""),
            Refused(1, MOST + 1),
        ),
        (
            "row: a wrong line before the 16,385th",
            text(b"", MOST - 1, b"g\t?\ng\t0\ng\t0\n"),
            Refused(1, MOST),
        ),
        ("row: 200 control fields", many, Refused(5, 1)),
        (
            "row: all lines constant and junk, 16,384 gates",
            full_marked,
            Served(all_header, MOST, marked_bytes),
        ),
        (
            "row: 128 marks, 16,385th gate line",
            text(&all, MOST + 1, b"end\n"),
            Refused(6, MOST + 129),
        ),
        (
            "row: 128 marks, 16,384 gates without end",
            text(&all, MOST, b""),
            Refused(1, MOST + 129),
        ),
        (
            "row: 129 marks",
            text(&all, 0, b"junk\t63\nend\n"),
            Refused(14, 129),
        ),
        (
            "row: a mark after 16,384 gates",
            text(b"", MOST, b"junk\t0\nend\n"),
            Refused(1, MOST + 1),
        ),
    ]
}

/// The text of a random cascade, mostly with marks.
pub fn good_text(random: &mut Random) -> Vec<u8> {
    let lines = random.pick(&[1, 2, 3, 9, 10, 11, 63, 64]);
    let gates = random.index(5);
    let marks = inputs::good_marks(random, lines);
    inputs::good_cascade(random, lines, gates)
        .with_marks(marks)
        .text()
}

/// What a damaged byte becomes.
pub const DAMAGE: &[u8] = b"\t\n0159+-gelcj \0\xff";

/// Each text that differs from the given one at a byte (dropped, doubled or changed), and each that is cut.
pub fn each_damaged(text: &[u8], check: &mut impl FnMut(Vec<u8>)) {
    for at in 0..text.len() {
        let (before, after) = (&text[..at], &text[at + 1..]);
        check([before, after].concat());
        check([before, &text[at..=at], &text[at..=at], after].concat());
        for byte in DAMAGE {
            check([before, &[*byte], after].concat());
        }
        check(before.to_vec());
    }
}

/// Each text that has one line of the given one at another place, where it has few lines.
pub fn each_moved(text: &[u8], check: &mut impl FnMut(Vec<u8>)) {
    let lines: Vec<&[u8]> = text.split_inclusive(|byte| *byte == b'\n').collect();
    if lines.len() > 16 {
        return;
    }
    for from in 0..lines.len() {
        for to in (0..lines.len()).filter(|to| *to != from) {
            let mut moved = lines.clone();
            let line = moved.remove(from);
            moved.insert(to, line);
            check(moved.concat());
        }
    }
}

/// Words that texts are made of, in any order.
const WORDS: &[&[u8]] = &[
    b"lines\t",
    b"lines\t4\n",
    b"g\t",
    b"g\t0",
    b"g\t1\t+0",
    b"end\n",
    b"const\t",
    b"const\t1\t0\n",
    b"const\t2\t1\n",
    b"junk\t",
    b"junk\t0\n",
    b"junk\t3\n",
    b"\n",
    b"\t",
    b"\t+",
    b"\t-",
    b"0",
    b"1",
    b"2",
    b"3",
    b"9",
    b"64",
    b"65",
    b"\t+1",
    b"\t-2",
    b"\t+3\n",
    b"x",
];

pub fn word_text(random: &mut Random) -> Vec<u8> {
    let mut text = if random.one_in(4) {
        Vec::new()
    } else {
        b"lines\t4\n".to_vec()
    };
    for _ in 0..random.index(12) {
        text.extend(random.pick(WORDS));
    }
    text
}
