//! The C interface, as include/cascade.h has it. A slice is a pointer and a count of elements.

#[repr(C)]
#[derive(Clone, Copy, Debug, PartialEq)]
pub struct Gate {
    pub positive: u64,
    pub negative: u64,
    pub target: u64,
}

#[repr(C)]
#[derive(Clone, Copy, Debug, PartialEq)]
pub struct Header {
    pub lines: u64,
    pub constants: u64,
    pub values: u64,
    pub junk: u64,
}

#[repr(C)]
#[derive(Clone, Copy, Debug, PartialEq)]
pub struct RunAnswer {
    pub number: u64,
    pub place: u64,
    pub state: u64,
}

#[repr(C)]
#[derive(Clone, Copy, Debug, PartialEq)]
pub struct CountAnswer {
    pub number: u64,
    pub place: u64,
    pub gates: u64,
}

#[repr(C)]
#[derive(Clone, Copy, Debug, PartialEq)]
pub struct SizesAnswer {
    pub number: u64,
    pub place: u64,
    pub variables: u64,
    pub clauses: u64,
    pub words: u64,
}

#[repr(C)]
#[derive(Clone, Copy, Debug, PartialEq)]
pub struct WordsAnswer {
    pub number: u64,
    pub place: u64,
    pub words: u64,
}

#[repr(C)]
#[derive(Clone, Copy, Debug, PartialEq)]
pub struct StepAnswer {
    pub number: u64,
    pub place: u64,
    pub found: u64,
    pub i: u64,
    pub j: u64,
    pub kind: u64,
    pub gates: u64,
}

#[repr(C)]
#[derive(Clone, Copy, Debug, PartialEq)]
pub struct ReduceAnswer {
    pub number: u64,
    pub place: u64,
    pub gates: u64,
    pub pairs: u64,
    pub merges: u64,
}

#[repr(C)]
#[derive(Clone, Copy, Debug, PartialEq)]
pub struct StateAnswer {
    pub number: u64,
    pub place: u64,
    pub found: u64,
    pub state: u64,
}

#[repr(C)]
#[derive(Clone, Copy, Debug, PartialEq)]
pub struct DiffersAnswer {
    pub number: u64,
    pub place: u64,
    pub differs: u64,
}

#[repr(C)]
#[derive(Clone, Copy, Debug, PartialEq)]
pub struct FewerAnswer {
    pub number: u64,
    pub place: u64,
    pub second: u64,
    pub gates: u64,
}

#[repr(C)]
#[derive(Clone, Copy, Debug, PartialEq)]
pub struct ReadAnswer {
    pub number: u64,
    pub place: u64,
    pub lines: u64,
    pub constants: u64,
    pub values: u64,
    pub junk: u64,
    pub gates: u64,
    pub taken: u64,
}

#[repr(C)]
#[derive(Clone, Copy, Debug, PartialEq)]
pub struct WriteAnswer {
    pub number: u64,
    pub place: u64,
    pub written: u64,
}

extern "C" {
    pub fn cascade_read(
        text: *const u8,
        text_len: usize,
        out: *mut u64,
        out_len: usize,
    ) -> ReadAnswer;
    pub fn cascade_write(
        header: Header,
        words: *const u64,
        words_len: usize,
        out: *mut u8,
        out_len: usize,
    ) -> WriteAnswer;
    pub fn cascade_run(lines: u64, words: *const u64, words_len: usize, state: u64) -> RunAnswer;
    pub fn cascade_run_records(
        lines: u64,
        gates: *const Gate,
        gates_len: usize,
        state: u64,
    ) -> RunAnswer;
    pub fn cascade_inverse(
        lines: u64,
        words: *const u64,
        words_len: usize,
        out: *mut u64,
        out_len: usize,
    ) -> CountAnswer;
    pub fn cascade_sizes(lines: u64, words: *const u64, words_len: usize) -> SizesAnswer;
    pub fn cascade_emit(
        lines: u64,
        words: *const u64,
        words_len: usize,
        out: *mut i32,
        out_len: usize,
    ) -> SizesAnswer;
    pub fn cascade_pair_sizes(
        a_header: Header,
        a: *const u64,
        a_len: usize,
        b_header: Header,
        b: *const u64,
        b_len: usize,
    ) -> SizesAnswer;
    pub fn cascade_pair_emit(
        a_header: Header,
        a: *const u64,
        a_len: usize,
        b_header: Header,
        b: *const u64,
        b_len: usize,
        out: *mut i32,
        out_len: usize,
    ) -> SizesAnswer;
    pub fn cascade_widen(
        words: *const i16,
        words_len: usize,
        out: *mut i32,
        out_len: usize,
    ) -> WordsAnswer;
    pub fn cascade_narrow(
        words: *const i32,
        words_len: usize,
        out: *mut i16,
        out_len: usize,
    ) -> WordsAnswer;
    pub fn cascade_miter(
        a_lines: u64,
        a: *const u64,
        a_len: usize,
        b_lines: u64,
        b: *const u64,
        b_len: usize,
        out: *mut u64,
        out_len: usize,
    ) -> CountAnswer;
    pub fn cascade_step(lines: u64, words: *mut u64, words_len: usize) -> StepAnswer;
    pub fn cascade_reduce(lines: u64, words: *mut u64, words_len: usize) -> ReduceAnswer;
    pub fn cascade_first_difference(
        a_header: Header,
        a: *const u64,
        a_len: usize,
        b_header: Header,
        b: *const u64,
        b_len: usize,
    ) -> StateAnswer;
    pub fn cascade_differs(
        a_header: Header,
        a: *const u64,
        a_len: usize,
        b_header: Header,
        b: *const u64,
        b_len: usize,
        state: u64,
    ) -> DiffersAnswer;
    pub fn cascade_fewer_gates(
        a_lines: u64,
        a: *const u64,
        a_len: usize,
        b_lines: u64,
        b: *const u64,
        b_len: usize,
    ) -> FewerAnswer;
    pub fn cascade_fault_masks(
        a_header: Header,
        a: *const u64,
        a_len: usize,
        b_header: Header,
        b: *const u64,
        b_len: usize,
        states: *const u64,
        states_len: usize,
        out: *mut u64,
        out_len: usize,
    ) -> CountAnswer;
}
