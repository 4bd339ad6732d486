//! cascade_write, and reading back what it wrote; the longest texts among it.

use crate::capi;
use crate::cases::{self, Single};
use crate::classes::{self, Given};
use crate::expected;
use crate::harness::{compare, compare_buffer, Buffer, Counts};
use crate::inputs::{self, Cascade, Marks};
use crate::random::Random;
use crate::reference::{self, CASCADE_GATES};

const RANDOM_CASES: u64 = 100_000;

const CLASSES: &[&str] = &[
    "served: the longest text",
    "served: the longest text without marks",
];

pub fn section(random: &mut Random) -> Counts {
    let buffers = &["words", "out"];
    let (name, given) = ("cascade_write", Given::Header);
    let mut counts = classes::single_counts(name, given, &[10], buffers, CLASSES);
    let mut check = |case: Single<u8>| check(&case, &mut counts);
    inputs::each_mark(&mut |cascade| {
        let needed = needed(&cascade);
        cases::each_length(random, &cascade, needed, |_| true, &mut check);
    });
    // bad marks and a gate too many
    let marks = Marks {
        junk: 1 << 8,
        ..Marks::default()
    };
    let long = inputs::blocked_cascade(random, 8, CASCADE_GATES + 1).with_marks(marks);
    cases::each_length(random, &long, needed(&long), |_| true, &mut check);
    let all = Marks {
        constants: u64::MAX,
        values: random.word(),
        junk: u64::MAX,
    };
    for marks in [Marks::default(), all] {
        let mut words = inputs::longest(random);
        words.truncate(3 * CASCADE_GATES);
        let longest = inputs::from_zero(64, words).with_marks(marks);
        cases::each_length(random, &longest, needed(&longest), |_| true, &mut check);
    }
    cases::each_with_out(
        random,
        CASCADE_GATES,
        RANDOM_CASES,
        inputs::marked_cascade,
        needed,
        |_| true,
        &mut check,
    );
    counts
}

/// The bytes of the text; a few where the words are no cascade.
fn needed(cascade: &Cascade) -> usize {
    match reference::test_headed(cascade.header(), &cascade.words) {
        Ok(_) => cascade.text().len(),
        Err(_) => 12,
    }
}

fn check(case: &Single<u8>, counts: &mut Counts) {
    let cascade = &case.cascade;
    let header = cascade.header();
    let library = |_, words: &mut Buffer<u64>, out: &mut Buffer<u8>| {
        let (header, words_len, out_len) = (expected::header(header), words.len(), out.len());
        unsafe { capi::cascade_write(header, words.pointer(), words_len, out.pointer(), out_len) }
    };
    let mut wanted = case.out.clone();
    let answer = expected::write_answer(reference::write(header, &cascade.words, &mut wanted));
    let mut out = case.check_out("cascade_write", library, answer, &wanted);
    if answer.number == 0 {
        check_back(cascade, &mut out, answer.written);
    }
    let text = cascade.text().len();
    let further = [(10, reference::short_buffer(&case.out, text))];
    let (given, number) = (Given::Header, answer.number);
    classes::count_single(counts, case, given, CASCADE_GATES, &further, number);
    classes::count_out(counts, &case.out, case.dangling, text, answer.number);
    if number == 0 {
        // lines: 9 bytes; a constant 9 and a junk line 6, both with the digits of the line; a gate with 63 controls
        // 129 and the digits of all 64 lines, which are 118; end: 4
        let gates = 9 + CASCADE_GATES * (129 + 118) + 4;
        let marks = 64 * (9 + 6) + 2 * 118;
        counts.add_if(text == gates, "served: the longest text without marks");
        counts.add_if(text == gates + marks, "served: the longest text");
    }
}

/// The library reads the text back, and takes all that was written.
fn check_back(case: &Cascade, text: &mut Buffer<u8>, written: u64) {
    let mut back = Buffer::new(&vec![0; case.words.len()]);
    let (text_len, out_len) = (text.len(), back.len());
    let answer = unsafe { capi::cascade_read(text.pointer(), text_len, back.pointer(), out_len) };
    let capi::ReadAnswer {
        lines,
        constants,
        values,
        junk,
        ..
    } = answer;
    let read = reference::Header {
        lines,
        constants,
        values,
        junk,
    };
    compare(case, "read back: header", read, case.header());
    compare(case, "read back: bytes", answer.taken, written);
    compare_buffer(case, "read back: words", &back, &case.words);
}
