//! Checks of the reference itself: the starred rows of document 01, rows of the requests of document
//! 02, and small cases worked by hand.

use crate::inputs;
use crate::reference::{self, Clause, ClauseList, Found, Gate, Header};
use crate::reference::{Match, Picked, Reduced, Refusal, Sizes};

pub fn check() {
    starred_runs();
    validity();
    apply_of_no_gate();
    inverse();
    pairs();
    headed();
    clauses();
    pair_clauses();
    sizes();
    emission();
    widths();
    miter();
    starred_steps();
    passing_steps();
    reductions();
    comparisons();
    marked_comparisons();
    faults();
    marked_faults();
    models();
    marked_models();
}

fn refusal<T>(number: u64, place: u64) -> Result<T, Refusal> {
    Err(Refusal { number, place })
}

/// The five starred rows about runs.
fn starred_runs() {
    let t2_with_0_and_1 = [3, 0, 2];
    let t2_with_0_not_1 = [1, 2, 2];
    let t0 = [0, 0, 0];
    assert_eq!(reference::run(3, &t2_with_0_and_1, 3), Ok(7));
    assert_eq!(reference::run(3, &t2_with_0_and_1, 1), Ok(1));
    assert_eq!(reference::run(3, &t2_with_0_not_1, 1), Ok(5));
    assert_eq!(reference::run(3, &t2_with_0_not_1, 3), Ok(3));
    assert_eq!(reference::run(1, &t0, 0), Ok(1));
}

/// Line counts from 0 to 2^64 - 1. Only 1 to 64 serve a call, and valid has an answer for each.
fn validity() {
    let valid = |positive, negative, target, n| {
        Gate {
            positive,
            negative,
            target,
        }
        .valid(n)
    };
    assert!(!valid(0, 0, 0, 0));
    assert!(valid(0, 0, 0, 1) && !valid(0, 0, 1, 1));
    assert!(valid(2, 0, 0, 2) && !valid(4, 0, 0, 2) && !valid(0, 4, 0, 2));
    assert!(!valid(2, 2, 0, 2) && !valid(1, 0, 0, 2) && !valid(0, 1, 0, 2));
    assert!(valid(!1, 0, 0, 64) && !valid(!1, 0, 0, 63));
    assert!(!valid(0, 0, 64, 64) && valid(0, 0, 64, 65));
    assert!(valid(u64::MAX, 0, u64::MAX - 1, u64::MAX) && !valid(0, 0, u64::MAX, u64::MAX));
}

fn apply_of_no_gate() {
    let no_gate = Gate {
        positive: 1,
        negative: 0,
        target: 0,
    };
    assert_eq!(no_gate.apply(1), 1);
    let no_line = Gate {
        positive: 0,
        negative: 0,
        target: 64,
    };
    assert_eq!(no_line.apply(5), 5);
    let last_line = Gate {
        positive: 0,
        negative: 0,
        target: 63,
    };
    assert_eq!(last_line.apply(1), 1 + (1 << 63));
}

/// The answer is at the start, and the rest stays. A refusal leaves all.
fn inverse() {
    let words = [0, 0, 0, 1, 0, 1];
    let mut out = [9; 7];
    assert_eq!(reference::inverse(2, &words, &mut out), Ok(2));
    assert_eq!(out, [1, 0, 1, 0, 0, 0, 9]);
    let mut short = [9; 5];
    assert_eq!(reference::inverse(2, &words, &mut short), refusal(10, 0));
    assert_eq!(reference::inverse(1, &words, &mut short), refusal(7, 1));
    assert_eq!(short, [9; 5]);
}

/// The first cascade's refusals, the second's, then 8.
fn pairs() {
    let not = [0, 0, 0];
    let no_gate = [0, 0, 9];
    let test = reference::test_pair;
    assert_eq!(test(2, &no_gate, 0, &not), refusal(7, 0));
    assert_eq!(test(2, &not, 0, &no_gate), refusal(2, 0));
    assert_eq!(test(2, &not, 3, &no_gate[..2]), refusal(11, 0));
    assert_eq!(test(2, &not, 3, &no_gate), refusal(7, 0));
    assert_eq!(test(2, &not, 3, &not), refusal(8, 0));
    assert!(test(2, &not, 2, &not).is_ok());
}

/// A header of three lines with constants, values and junk lines.
fn three_lines(constants: u64, values: u64, junk: u64) -> Header {
    Header {
        lines: 3,
        constants,
        values,
        junk,
    }
}

/// 2, 14, 11, 6, 7 of the first cascade, of the second, 8, 15.
fn headed() {
    let no_gate = [0, 0, 9];
    let unmarked = Header::unmarked;
    let test = reference::test_headed_pair;
    let marked = three_lines(6, 2, 5);
    assert!(test(marked, &[], marked, &[]).is_ok());
    let all = Header {
        lines: 64,
        constants: u64::MAX,
        values: 1 << 63,
        junk: u64::MAX,
    };
    assert!(test(all, &[], all, &[]).is_ok());
    for bad in [
        three_lines(8, 0, 0),
        three_lines(8, 8, 0),
        three_lines(0, 8, 0),
        three_lines(0, 0, 8),
        three_lines(1, 2, 0),
        three_lines(0, 1, 1),
    ] {
        assert_eq!(test(bad, &no_gate[..2], marked, &[]), refusal(14, 0));
        assert_eq!(test(marked, &[], bad, &no_gate), refusal(14, 0));
        assert_eq!(test(marked, &no_gate[..2], bad, &[]), refusal(11, 0));
        assert_eq!(test(bad, &[], unmarked(0), &[]), refusal(14, 0));
        let none = Header { lines: 0, ..bad };
        assert_eq!(test(none, &[], bad, &[]), refusal(2, 0));
    }
    let wider = Header { lines: 4, ..marked };
    assert_eq!(test(marked, &[], wider, &no_gate), refusal(7, 0));
    assert_eq!(test(unmarked(3), &[], wider, &[]), refusal(8, 0));
    for other in [
        unmarked(3),
        three_lines(2, 2, 5),
        three_lines(6, 4, 5),
        three_lines(6, 2, 1),
    ] {
        assert_eq!(test(marked, &[], other, &[]), refusal(15, 0));
    }
}

fn or(literals: &[i64]) -> Clause {
    Clause::Or(literals.to_vec())
}

fn xor(literals: &[i64]) -> Clause {
    Clause::Xor(literals.to_vec())
}

/// The printed example of 01, and gates with controls of both polarities.
fn clauses() {
    let list = |n, words: &[u64]| reference::clause_list(n, &reference::gates_of(words));
    let printed = ClauseList {
        variables: 5,
        clauses: vec![xor(&[-3, 2, 1]), or(&[-4]), xor(&[-5, 2, 3]), or(&[4, 5])],
    };
    assert_eq!(list(2, &[1, 0, 1]), printed);
    let not_then_two = ClauseList {
        variables: 9,
        clauses: vec![
            xor(&[4, 1]),
            or(&[5, -4, 3]),
            or(&[-5, 4]),
            or(&[-5, -3]),
            xor(&[-6, 2, 5]),
            xor(&[-7, 1, 4]),
            xor(&[-8, 2, 6]),
            or(&[-9]),
            or(&[7, 8, 9]),
        ],
    };
    assert_eq!(list(3, &[0, 0, 0, 1, 4, 1]), not_then_two);
}

/// T-03: t1+0 against t1+0-2 t0, with line 1 tied to 1, line 2 to 0 and line 0 junk; every line junk; and
/// the list of the miter, with B's gates reversed.
fn pair_clauses() {
    let list = |header, a: &[u64], b: &[u64]| {
        reference::pair_list(header, &reference::gates_of(a), &reference::gates_of(b))
    };
    let (t1_with_0, t1_with_0_not_2) = ([1, 0, 1], [1, 4, 1]);
    let b = [t1_with_0_not_2, [0, 0, 0]].concat();
    let marked = ClauseList {
        variables: 9,
        clauses: vec![
            or(&[2]),
            or(&[-3]),
            xor(&[-4, 2, 1]),
            or(&[5, -1, 3]),
            or(&[-5, 1]),
            or(&[-5, -3]),
            xor(&[-6, 2, 5]),
            xor(&[7, 1]),
            xor(&[-8, 4, 6]),
            or(&[-9]),
            or(&[8, 9]),
        ],
    };
    assert_eq!(list(three_lines(6, 2, 1), &t1_with_0, &b), marked);
    let all_junk = Header {
        junk: 1,
        ..Header::unmarked(1)
    };
    let nothing_counts = ClauseList {
        variables: 2,
        clauses: vec![xor(&[2, 1]), or(&[])],
    };
    assert_eq!(list(all_junk, &[], &[0, 0, 0]), nothing_counts);
    let miter = ClauseList {
        variables: 7,
        clauses: vec![
            xor(&[-3, 2, 1]),
            xor(&[4, 3]),
            xor(&[5, 1]),
            xor(&[-6, 1, 5]),
            xor(&[-7, 2, 4]),
            or(&[6, 7]),
        ],
    };
    let b = [0, 0, 0, 0, 0, 1];
    assert_eq!(list(Header::unmarked(2), &t1_with_0, &b), miter);
}

/// The starred rows on sizes: the miter of a cascade and an empty one is its own gates.
fn sizes() {
    let sizes = |variables, clauses, words| {
        Ok(Sizes {
            variables,
            clauses,
            words,
        })
    };
    assert_eq!(reference::sizes(1, &[]), sizes(2, 2, 6));
    assert_eq!(reference::sizes(3, &[3, 0, 2]), sizes(8, 8, 34));
    let pair = |header, a: &[u64], b: &[u64]| reference::pair_sizes(header, a, header, b);
    let unmarked = Header::unmarked(3);
    assert_eq!(pair(unmarked, &[], &[3, 0, 2]), sizes(8, 8, 34));
    let b = [1, 4, 1, 0, 0, 0];
    assert_eq!(pair(three_lines(6, 2, 1), &[1, 0, 1], &b), sizes(9, 11, 45));
    assert_eq!(pair(three_lines(0, 0, 7), &[], &[]), sizes(3, 1, 2));
}

/// 01's printed example in words, with the rest of the buffer; and a buffer one word short.
fn emission() {
    let printed = [1, 3, -3, 2, 1, 0, 1, -4, 1, 3, -5, 2, 3, 0, 2, 4, 5];
    let mut out = [9; 19];
    let sizes = Sizes {
        variables: 5,
        clauses: 4,
        words: 17,
    };
    assert_eq!(reference::emit(2, &[1, 0, 1], &mut out), Ok(sizes));
    assert_eq!(out[..17], printed);
    assert_eq!(out[17..], [9, 9]);
    let mut short = [9; 16];
    let answer = reference::emit(2, &[1, 0, 1], &mut short);
    assert_eq!(answer, refusal(10, 0));
    assert_eq!(short, [9; 16]);
    let junk = three_lines(0, 0, 7);
    let mut out = [9; 7];
    let emit = reference::pair_emit;
    let answer = emit(junk, &[0, 0, 1], junk, &[], &mut out[..5]);
    assert_eq!((answer, out), (refusal(10, 0), [9; 7]));
    let answer = emit(junk, &[0, 0, 1], junk, &[], &mut out);
    assert_eq!(answer.map(|sizes| sizes.words), Ok(6));
    assert_eq!(out, [1, 2, 4, 2, 0, 0, 9]);
}

/// Words of 16 bits and the same of 32; a refusal leaves all.
fn widths() {
    let narrow: [i16; 5] = [1, -1, 0, -32_768, 32_767];
    let wide: [i32; 5] = [1, -1, 0, -32_768, 32_767];
    let mut out = [9; 6];
    assert_eq!(reference::widen(&narrow, &mut out), Ok(5));
    assert_eq!(out, [1, -1, 0, -32_768, 32_767, 9]);
    let mut out = [9; 4];
    assert_eq!(reference::widen(&narrow, &mut out), refusal(10, 0));
    assert_eq!(out, [9; 4]);
    let mut out = [9; 6];
    assert_eq!(reference::narrow(&wide, &mut out), Ok(5));
    assert_eq!(out, [1, -1, 0, -32_768, 32_767, 9]);
    let mut out = [9; 4];
    assert_eq!(reference::narrow(&wide, &mut out), refusal(10, 0));
    for bad in [-32_769, 32_768, i32::MIN, i32::MAX, 65_536] {
        assert_eq!(reference::narrow(&[0, bad, bad], &mut out), refusal(16, 1));
        assert_eq!(reference::narrow(&[0, 0, 0, 0, bad], &mut out), refusal(16, 4));
        assert_eq!(reference::narrow(&[bad], &mut []), refusal(16, 0));
    }
    assert_eq!(out, [9; 4]);
    assert_eq!(reference::widen(&[], &mut []), Ok(0));
    assert_eq!(reference::narrow(&[], &mut []), Ok(0));
    // OR (3, -40000), the OR of nothing, XOR (1); then a list that is cut, one of another kind, and a count below 0
    let list = [Clause::Or(vec![3, -40_000]), or(&[]), xor(&[1])];
    let words = [0, 2, 3, -40_000, 0, 0, 1, 1, 1];
    assert_eq!(reference::clauses_of(&words), Some(list.to_vec()));
    assert_eq!(reference::clauses_of(&words[..8]), None);
    assert_eq!(reference::clauses_of(&words[..7]), None);
    assert_eq!(reference::clauses_of(&[2, 0]), None);
    assert_eq!(reference::clauses_of(&[0, -1]), None);
    assert_eq!(reference::clauses_of::<i16>(&[]), Some(vec![]));
}

/// A's gates, then B's reversed; the rest stays.
fn miter() {
    let (a, b) = ([1, 0, 1], [0, 0, 0, 0, 1, 1]);
    let mut out = [9; 10];
    assert_eq!(reference::miter(2, &a, 2, &b, &mut out), Ok(3));
    assert_eq!(out, [1, 0, 1, 0, 1, 1, 0, 0, 0, 9]);
    assert_eq!(reference::miter(2, &a, 2, &b, &mut [9; 8]), refusal(10, 0));
    assert_eq!(reference::miter(2, &a, 3, &b, &mut [9; 8]), refusal(8, 0));
}

/// The words after a step on three lines, and what it found.
fn after_step(gates: &[[u64; 3]]) -> (Option<Found>, Vec<u64>) {
    let mut words = gates.concat();
    let found = reference::step(3, &mut words).expect("the gates are valid");
    (found, words)
}

/// The six starred rows about steps.
fn starred_steps() {
    let found = |i, j, kind, gates| Some(Found { i, j, kind, gates });
    let t2_with_0_and_1 = [3, 0, 2];
    let t2_with_0_not_1 = [1, 2, 2];
    let t2_with_0 = [1, 0, 2];
    let t2_with_1 = [2, 0, 2];
    let t2_not_0_not_1 = [0, 3, 2];
    let t1 = [0, 0, 1];
    let (step, words) = after_step(&[t2_with_0_and_1, t2_with_0_and_1]);
    assert_eq!((step, words), (found(0, 1, Match::Pair, 0), vec![0; 6]));
    let (step, words) = after_step(&[t2_with_0_and_1, t2_with_0_not_1]);
    assert_eq!(step, found(0, 1, Match::Drop, 1));
    assert_eq!(words, [t2_with_0, [0; 3]].concat());
    let (step, words) = after_step(&[t2_with_0_and_1, t2_with_0]);
    assert_eq!(step, found(0, 1, Match::Turn, 1));
    assert_eq!(words, [t2_with_0_not_1, [0; 3]].concat());
    let (step, words) = after_step(&[t2_with_0_and_1, t2_not_0_not_1]);
    assert_eq!(step, None);
    assert_eq!(words, [t2_with_0_and_1, t2_not_0_not_1].concat());
    let (step, words) = after_step(&[t2_with_0, t1, t2_with_0]);
    assert_eq!(step, found(0, 2, Match::Pair, 1));
    assert_eq!(words, [t1, [0; 3], [0; 3]].concat());
    let (step, words) = after_step(&[t2_with_1, t1, t2_with_1]);
    assert_eq!(step, None);
    assert_eq!(words, [t2_with_1, t1, t2_with_1].concat());
}

/// T-01: t2+0 may pass t1+2-0, since line 0 is a positive control of one and a negative control of the
/// other; it may not pass t1+2. Its target is a control of both.
fn passing_steps() {
    let t2_with_0 = [1, 0, 2];
    let t1_with_2 = [4, 0, 1];
    let t1_with_2_not_0 = [4, 1, 1];
    let (step, words) = after_step(&[t2_with_0, t1_with_2_not_0, t2_with_0]);
    let (i, j, kind, gates) = (0, 2, Match::Pair, 1);
    assert_eq!(step, Some(Found { i, j, kind, gates }));
    assert_eq!(words, [t1_with_2_not_0, [0; 3], [0; 3]].concat());
    let (step, words) = after_step(&[t2_with_0, t1_with_2, t2_with_0]);
    assert_eq!(step, None);
    assert_eq!(words, [t2_with_0, t1_with_2, t2_with_0].concat());
}

/// Two pairs; a drop whose gate then makes a pair; nothing.
fn reductions() {
    let reduce = |gates: &[[u64; 3]]| reference::reduce(3, &mut gates.concat());
    let reduced = |gates, pairs, merges| {
        Ok(Reduced {
            gates,
            pairs,
            merges,
        })
    };
    assert_eq!(reduce(&[[0, 0, 0]; 4]), reduced(0, 2, 0));
    assert_eq!(reduce(&[[3, 0, 2], [1, 2, 2], [1, 0, 2]]), reduced(0, 1, 1));
    assert_eq!(reduce(&[[1, 0, 2], [0, 0, 0]]), reduced(2, 0, 0));
}

/// The lowest of several differences, none, the input check, the pick, and tests that compete.
fn comparisons() {
    let (t2_with_0, t2_with_0_and_1) = ([1, 0, 2], [3, 0, 2]);
    let two_nots = [0; 6];
    let sweep = |na, a: &[u64], nb, b: &[u64]| {
        reference::first_difference(Header::unmarked(na), a, Header::unmarked(nb), b)
    };
    assert_eq!(sweep(3, &t2_with_0, 3, &t2_with_0_and_1), Ok(Some(1)));
    assert_eq!(sweep(3, &t2_with_0_and_1, 3, &[]), Ok(Some(3)));
    assert_eq!(sweep(3, &two_nots, 3, &[]), Ok(None));
    assert_eq!(sweep(17, &[], 17, &[]), refusal(13, 0));
    assert_eq!(sweep(17, &[], 16, &[]), refusal(8, 0));
    assert_eq!(sweep(17, &[], 17, &[0, 0, 17]), refusal(7, 0));
    let differs = |na, a: &[u64], nb, b: &[u64], state| {
        reference::differs(Header::unmarked(na), a, Header::unmarked(nb), b, state)
    };
    assert_eq!(differs(3, &t2_with_0, 3, &t2_with_0_and_1, 1), Ok(true));
    assert_eq!(differs(3, &t2_with_0, 3, &t2_with_0_and_1, 3), Ok(false));
    assert_eq!(differs(3, &[], 3, &[], 8), refusal(9, 0));
    assert_eq!(differs(3, &[], 4, &[], 8), refusal(8, 0));
    let picked = |second, gates| Ok(Picked { second, gates });
    assert_eq!(reference::pick(3, &two_nots, 3, &[]), picked(true, 0));
    assert_eq!(reference::pick(3, &[], 3, &two_nots), picked(false, 0));
    assert_eq!(reference::pick(3, &t2_with_0, 3, &[0; 3]), picked(false, 1));
    assert_eq!(reference::pick(3, &[], 4, &[]), refusal(8, 0));
}

/// t2+0 and t2+0+1 differ on 1 and 5: with line 1, 0 or 2 tied, and with line 2 or another junk. Tests that
/// compete.
fn marked_comparisons() {
    let (t2_with_0, t2_with_0_and_1) = ([1, 0, 2], [3, 0, 2]);
    let sweep = |header| reference::first_difference(header, &t2_with_0, header, &t2_with_0_and_1);
    assert_eq!(sweep(three_lines(2, 0, 0)), Ok(Some(1)));
    assert_eq!(sweep(three_lines(2, 2, 0)), Ok(None));
    assert_eq!(sweep(three_lines(1, 0, 0)), Ok(None));
    assert_eq!(sweep(three_lines(4, 4, 0)), Ok(Some(5)));
    assert_eq!(sweep(three_lines(7, 5, 3)), Ok(Some(5)));
    assert_eq!(sweep(three_lines(0, 0, 4)), Ok(None));
    assert_eq!(sweep(three_lines(0, 0, 3)), Ok(Some(1)));
    let differs =
        |header, state| reference::differs(header, &t2_with_0, header, &t2_with_0_and_1, state);
    assert_eq!(differs(three_lines(4, 4, 0), 1), refusal(9, 0));
    assert_eq!(differs(three_lines(4, 4, 0), 5), Ok(true));
    assert_eq!(differs(three_lines(4, 4, 0), 12), refusal(9, 0));
    assert_eq!(differs(three_lines(0, 0, 4), 1), Ok(false));
    let (plain, tied) = (three_lines(0, 0, 0), three_lines(1, 0, 0));
    assert_eq!(reference::differs(plain, &[], tied, &[], 1), refusal(15, 0));
    let wide = |header: Header| Header {
        lines: 17,
        ..header
    };
    let answer = reference::first_difference(wide(plain), &[], wide(tied), &[]);
    assert_eq!(answer, refusal(15, 0));
    let answer = reference::first_difference(wide(tied), &[], wide(tied), &[]);
    assert_eq!(answer, refusal(13, 0));
}

/// The starred row on faults; no states; the network 3_17 of document 002; tests that compete.
fn faults() {
    let (t2_with_0, t2_with_0_and_1) = ([1, 0, 2], [3, 0, 2]);
    let masks = |suspect: &[u64], right: &[u64], states: &[u64], out: &mut [u64]| {
        let header = Header::unmarked(3);
        reference::fault_masks(header, suspect, header, right, states, out)
    };
    let mut out = [9; 3];
    assert_eq!(masks(&t2_with_0, &t2_with_0_and_1, &[1], &mut out), Ok(1));
    assert_eq!(out, [2, 0, 9]);
    assert_eq!(masks(&t2_with_0, &[], &[], &mut out), Ok(1));
    assert_eq!(out, [2, 2, 9]);
    let mut refused = |states: &[u64], room| {
        let answer = masks(&t2_with_0, &t2_with_0_and_1, states, &mut out[..room]);
        assert_eq!(out, [2, 2, 9]);
        answer
    };
    assert_eq!(refused(&[3, 8], 1), refusal(9, 1));
    assert_eq!(refused(&[1, 3], 1), refusal(12, 1));
    assert_eq!(refused(&[1], 1), refusal(10, 0));
    let first = [1, 0, 1];
    let rest = [[0, 0, 2], [4, 0, 1], [1, 0, 2], [6, 0, 0]].concat();
    let right = [&first[..], &[6, 0, 0], &rest].concat();
    let suspect = [&first[..], &[4, 0, 0], &rest].concat();
    let header = Header::unmarked(3);
    let first = reference::first_difference(header, &suspect, header, &right);
    assert_eq!(first, Ok(Some(4)));
    let mut out = [9; 12];
    assert_eq!(masks(&suspect, &right, &[4, 7], &mut out), Ok(6));
    assert_eq!(out[..4], [0, 0, 2, 0], "only line 1 of the second gate");
}

/// The starred row with marks: a line stands, though it is tied or junk; a state that breaks a constant; and
/// one on which only a junk line differs.
fn marked_faults() {
    let (t2_with_0, t2_with_0_and_1) = ([1, 0, 2], [3, 0, 2]);
    let masks = |header, states: &[u64]| {
        let mut out = [9; 2];
        reference::fault_masks(
            header,
            &t2_with_0,
            header,
            &t2_with_0_and_1,
            states,
            &mut out,
        )
        .map(|_| out)
    };
    assert_eq!(masks(three_lines(3, 1, 2), &[1, 5]), Ok([2, 0]));
    assert_eq!(masks(three_lines(3, 1, 2), &[1, 0]), refusal(9, 1));
    assert_eq!(masks(three_lines(4, 0, 0), &[3, 5]), refusal(9, 1));
    assert_eq!(masks(three_lines(4, 0, 0), &[1, 3]), refusal(12, 1));
    assert_eq!(masks(three_lines(0, 0, 4), &[1]), refusal(12, 0));
    assert_eq!(masks(three_lines(0, 0, 4), &[]), Ok([2, 2]));
}

/// Every assignment of small lists: an input that the gates change is spelled by exactly one that
/// satisfies, and no other input by any.
fn models() {
    let gates = inputs::every_gate(3);
    for first in &gates {
        for second in &gates {
            check_models(3, &[*first, *second]);
        }
    }
    check_models(1, &[]);
}

fn check_models(n: u64, gates: &[Gate]) {
    let models = models_of(n, &reference::clause_list(n, gates));
    for (input, models) in models.iter().enumerate() {
        let output = output(gates, input as u64);
        let changed = output != input as u64;
        assert_eq!(*models, u64::from(changed), "{gates:?} on {input}");
    }
}

fn output(gates: &[Gate], input: u64) -> u64 {
    gates.iter().fold(input, |state, gate| gate.apply(state))
}

/// How many assignments that satisfy the list spell each input.
fn models_of(n: u64, list: &ClauseList) -> Vec<u64> {
    let mut models = vec![0; 1 << n];
    for assignment in 0..1u64 << list.variables {
        let literal = |l: &&i64| reference::has(assignment, l.unsigned_abs() - 1) == (**l > 0);
        let holds = |clause: &Clause| match clause {
            Clause::Or(literals) => literals.iter().any(|l| literal(&l)),
            Clause::Xor(literals) => literals.iter().filter(literal).count() % 2 == 1,
        };
        if list.clauses.iter().all(holds) {
            models[(assignment % (1 << n)) as usize] += 1;
        }
    }
    models
}

/// The same of two cascades with headers: an input is spelled by exactly one where it honours the
/// constants and a line that is not junk comes out differently, and no other by any. Cascades of up to two
/// gates on one line and on two, with every header; every two gates on three lines, with all constants and
/// one choice of junk lines in turn.
fn marked_models() {
    for n in 1..=2 {
        let mut sides = vec![vec![]];
        let gates = inputs::every_gate(n);
        for gate in &gates {
            sides.extend([vec![*gate], vec![*gate, gates[0]]]);
        }
        for header in every_header(n) {
            for first in &sides {
                for second in &sides {
                    check_pair_models(header, first, second);
                }
            }
        }
    }
    let gates = inputs::every_gate(3);
    let headers = every_header(3);
    let mut turn = 0;
    for first in &gates {
        for second in &gates {
            turn = (turn + 1) % 8;
            for header in headers.iter().filter(|header| header.junk == turn) {
                check_pair_models(*header, &[*first], &[*second]);
            }
        }
    }
}

fn every_header(lines: u64) -> Vec<Header> {
    let mut headers = Vec::new();
    for constants in 0..1 << lines {
        for values in 0..1 << lines {
            headers.extend((0..1 << lines).map(|junk| Header {
                lines,
                constants,
                values,
                junk,
            }));
        }
    }
    headers.retain(|header| !reference::bad_marks(*header));
    headers
}

fn check_pair_models(header: Header, first: &[Gate], second: &[Gate]) {
    let models = models_of(header.lines, &reference::pair_list(header, first, second));
    for (input, models) in models.iter().enumerate() {
        let state = input as u64;
        let changed = output(first, state) ^ output(second, state);
        let tied = header.constants & (state ^ header.values) == 0;
        let differs = tied && changed & !header.junk != 0;
        assert_eq!(
            *models,
            u64::from(differs),
            "{header:?} {first:?} {second:?} on {input}"
        );
    }
}
