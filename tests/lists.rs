//! The miter of two cascades, its clause list and that of the two, by the C interface.

use crate::capi::{self, Header, SizesAnswer};

/// The words of the miter of two cascades, a gate as its three words.
pub fn miter(lines: u64, a: &[[u64; 3]], b: &[[u64; 3]]) -> Vec<u64> {
    let (a, b) = (a.concat(), b.concat());
    let mut out = vec![0; a.len() + b.len()];
    let answer = unsafe {
        capi::cascade_miter(
            lines,
            a.as_ptr(),
            a.len(),
            lines,
            b.as_ptr(),
            b.len(),
            out.as_mut_ptr(),
            out.len(),
        )
    };
    assert_eq!(answer.number, 0, "the miter is refused");
    out.truncate(3 * answer.gates as usize);
    out
}

pub struct Clause {
    pub xor: bool,
    pub literals: Vec<i64>,
}

pub struct List {
    pub variables: u64,
    pub clauses: Vec<Clause>,
}

/// The clause list of a cascade's words.
pub fn emit(lines: u64, words: &[u64]) -> List {
    let sizes = unsafe { capi::cascade_sizes(lines, words.as_ptr(), words.len()) };
    read(sizes, |out: &mut [i32]| {
        let (start, room) = (out.as_mut_ptr(), out.len());
        unsafe { capi::cascade_emit(lines, words.as_ptr(), words.len(), start, room) }
    })
}

/// The clause list of the words of two cascades with the same header.
pub fn pair(header: Header, a: &[u64], b: &[u64]) -> List {
    let (first, second) = (a.as_ptr(), b.as_ptr());
    let sizes = unsafe {
        capi::cascade_pair_sizes(header, first, a.len(), header, second, b.len())
    };
    read(sizes, |out: &mut [i32]| {
        let (start, room) = (out.as_mut_ptr(), out.len());
        unsafe {
            capi::cascade_pair_emit(header, first, a.len(), header, second, b.len(), start, room)
        }
    })
}

/// The list of those sizes that is emitted, read strictly.
fn read(sizes: SizesAnswer, emit: impl FnOnce(&mut [i32]) -> SizesAnswer) -> List {
    assert_eq!(sizes.number, 0, "sizes are refused");
    let mut out = vec![0i32; sizes.words as usize];
    let answer = emit(&mut out);
    assert_eq!(answer, sizes, "the emission's totals are not the sizes");
    let mut clauses = Vec::new();
    let mut rest = &out[..];
    while let [kind, count, more @ ..] = rest {
        assert!(*kind == 0 || *kind == 1, "no kind: {kind}");
        let (literals, after) = more.split_at(*count as usize);
        let literals: Vec<i64> = literals.iter().map(|&literal| i64::from(literal)).collect();
        for literal in &literals {
            assert!(*literal != 0 && literal.unsigned_abs() <= answer.variables);
        }
        clauses.push(Clause {
            xor: *kind == 1,
            literals,
        });
        rest = after;
    }
    assert!(rest.is_empty(), "words are left over");
    assert_eq!(clauses.len() as u64, answer.clauses);
    List {
        variables: answer.variables,
        clauses,
    }
}

/// The list as the solver's text: an XOR has `x` joined to its first literal, ` 0` closes a clause.
pub fn dimacs(list: &List) -> String {
    let mut text = format!("p cnf {} {}\n", list.variables, list.clauses.len());
    for clause in &list.clauses {
        let literals: Vec<String> = clause.literals.iter().map(i64::to_string).collect();
        text += if clause.xor { "x" } else { "" };
        text += &literals.join(" ");
        text += " 0\n";
    }
    text
}
