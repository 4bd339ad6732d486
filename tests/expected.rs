//! The reference's answers in the numbers of the C interface: number 0 for a served call, and 0 for
//! each value that a case does not have.

use crate::capi::{CountAnswer, DiffersAnswer, FewerAnswer, Header, ReadAnswer, ReduceAnswer};
use crate::capi::{RunAnswer, SizesAnswer, StateAnswer, StepAnswer, WordsAnswer, WriteAnswer};
use crate::reference::{self, FileCascade, Found, Match, Picked, Reduced, Refusal, Sizes};

/// A header as the calls are given it.
pub fn header(header: reference::Header) -> Header {
    let reference::Header {
        lines,
        constants,
        values,
        junk,
    } = header;
    Header {
        lines,
        constants,
        values,
        junk,
    }
}

/// The number, the place, and the values.
fn parts<V: Default>(answer: Result<V, Refusal>) -> (u64, u64, V) {
    match answer {
        Ok(values) => (0, 0, values),
        Err(Refusal { number, place }) => (number, place, V::default()),
    }
}

pub fn run_answer(answer: Result<u64, Refusal>) -> RunAnswer {
    let (number, place, state) = parts(answer);
    RunAnswer {
        number,
        place,
        state,
    }
}

pub fn count_answer(answer: Result<u64, Refusal>) -> CountAnswer {
    let (number, place, gates) = parts(answer);
    CountAnswer {
        number,
        place,
        gates,
    }
}

pub fn sizes_answer(answer: Result<Sizes, Refusal>) -> SizesAnswer {
    let values = answer.map(|sizes| (sizes.variables, sizes.clauses, sizes.words));
    let (number, place, (variables, clauses, words)) = parts(values);
    SizesAnswer {
        number,
        place,
        variables,
        clauses,
        words,
    }
}

pub fn words_answer(answer: Result<u64, Refusal>) -> WordsAnswer {
    let (number, place, words) = parts(answer);
    WordsAnswer {
        number,
        place,
        words,
    }
}

/// Of a step on so many words; none and a refusal leave the count.
pub fn step_answer(words: usize, answer: Result<Option<Found>, Refusal>) -> StepAnswer {
    let (number, place, found) = parts(answer);
    let mut c = StepAnswer {
        number,
        place,
        found: 0,
        i: 0,
        j: 0,
        kind: 0,
        gates: (words / 3) as u64,
    };
    if let Some(found) = found {
        c.found = 1;
        c.i = found.i as u64;
        c.j = found.j as u64;
        c.kind = match found.kind {
            Match::Pair => 0,
            Match::Drop => 1,
            Match::Turn => 2,
        };
        c.gates = found.gates as u64;
    }
    c
}

/// Of a reduction of so many words; a refusal leaves the count.
pub fn reduce_answer(words: usize, answer: Result<Reduced, Refusal>) -> ReduceAnswer {
    let gates = answer.map_or(words / 3, |reduced| reduced.gates) as u64;
    let (number, place, (pairs, merges)) = parts(answer.map(|found| (found.pairs, found.merges)));
    ReduceAnswer {
        number,
        place,
        gates,
        pairs,
        merges,
    }
}

pub fn state_answer(answer: Result<Option<u64>, Refusal>) -> StateAnswer {
    let (number, place, first) = parts(answer);
    StateAnswer {
        number,
        place,
        found: u64::from(first.is_some()),
        state: first.unwrap_or(0),
    }
}

pub fn differs_answer(answer: Result<bool, Refusal>) -> DiffersAnswer {
    let (number, place, differs) = parts(answer.map(u64::from));
    DiffersAnswer {
        number,
        place,
        differs,
    }
}

pub fn fewer_answer(answer: Result<Picked, Refusal>) -> FewerAnswer {
    let values = answer.map(|picked| (u64::from(picked.second), picked.gates as u64));
    let (number, place, (second, gates)) = parts(values);
    FewerAnswer {
        number,
        place,
        second,
        gates,
    }
}

pub fn read_answer(answer: &Result<FileCascade, Refusal>) -> ReadAnswer {
    let nothing = FileCascade {
        header: reference::Header::unmarked(0),
        gates: vec![],
        taken: 0,
    };
    let (number, place, cascade) = match answer {
        Ok(cascade) => (0, 0, cascade),
        Err(Refusal { number, place }) => (*number, *place, &nothing),
    };
    ReadAnswer {
        number,
        place,
        lines: cascade.header.lines,
        constants: cascade.header.constants,
        values: cascade.header.values,
        junk: cascade.header.junk,
        gates: cascade.gates.len() as u64,
        taken: cascade.taken as u64,
    }
}

pub fn write_answer(answer: Result<u64, Refusal>) -> WriteAnswer {
    let (number, place, written) = parts(answer);
    WriteAnswer {
        number,
        place,
        written,
    }
}
