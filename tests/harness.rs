//! What every section of the differential test needs: buffers between guards, the table of counts,
//! and the comparison that stops at the first mismatch.

use crate::capi::Gate;
use std::collections::BTreeMap;
use std::cell::Cell;
use std::fmt::Debug;
use std::ptr::NonNull;

// ---- buffers

/// Guard elements on each side of a buffer.
const GUARDS: usize = 32;

/// An element of a buffer, with the pattern of the guard at an index.
pub trait Element: Copy + Debug + PartialEq {
    fn guard(index: usize) -> Self;
}

impl Element for u64 {
    fn guard(index: usize) -> u64 {
        0xc0de_5afe_0000_0000 + index as u64
    }
}

impl Element for Gate {
    fn guard(index: usize) -> Gate {
        Gate {
            positive: u64::guard(3 * index),
            negative: u64::guard(3 * index + 1),
            target: u64::guard(3 * index + 2),
        }
    }
}

impl Element for u8 {
    fn guard(index: usize) -> u8 {
        0xa5 ^ index as u8
    }
}

impl Element for i16 {
    fn guard(index: usize) -> i16 {
        0x5a00 + index as i16
    }
}

impl Element for i32 {
    fn guard(index: usize) -> i32 {
        0x5a00_c0de + index as i32
    }
}

thread_local! {
    /// How often an empty buffer of this section had a pointer to no memory.
    static DANGLING: Cell<u64> = const { Cell::new(0) };
}

/// A pointer to no memory: null, or aligned and not null, by turns that have no pattern.
fn dangling<T>() -> *mut T {
    let turn = DANGLING.replace(DANGLING.get() + 1);
    if turn.wrapping_mul(0x9e37_79b9_7f4a_7c15) >> 63 == 0 {
        std::ptr::null_mut()
    } else {
        NonNull::dangling().as_ptr()
    }
}

/// A buffer to lend to a call, with guards before and after.
pub struct Buffer<T> {
    memory: Vec<T>,
    dangling: bool,
}

impl<T: Element> Buffer<T> {
    pub fn new(contents: &[T]) -> Buffer<T> {
        let guards = (0..GUARDS).map(T::guard);
        let memory = guards
            .clone()
            .chain(contents.iter().copied())
            .chain(guards)
            .collect();
        Buffer {
            memory,
            dangling: false,
        }
    }

    /// The same; but where it is empty and `dangling` is set, the pointer belongs to no memory.
    pub fn placed(contents: &[T], dangling: bool) -> Buffer<T> {
        Buffer {
            dangling: dangling && contents.is_empty(),
            ..Buffer::new(contents)
        }
    }

    pub fn len(&self) -> usize {
        self.memory.len() - 2 * GUARDS
    }

    pub fn pointer(&mut self) -> *mut T {
        if self.dangling {
            dangling()
        } else {
            self.memory[GUARDS..].as_mut_ptr()
        }
    }

    pub fn contents(&self) -> &[T] {
        &self.memory[GUARDS..GUARDS + self.len()]
    }

    fn guards_kept(&self) -> bool {
        let end = GUARDS + self.len();
        (0..GUARDS).all(|i| self.memory[i] == T::guard(i) && self.memory[end + i] == T::guard(i))
    }
}

// ---- comparison

/// Ends the program with the whole case if the two differ.
pub fn compare<T: Debug + PartialEq>(case: &impl Debug, what: &str, library: T, reference: T) {
    if library != reference {
        println!("mismatch: {what}");
        println!("  case:      {}", shown(case));
        println!("  library:   {}", shown(&library));
        println!("  reference: {}", shown(&reference));
        std::process::exit(1);
    }
}

/// The characters of a mismatch that are printed.
const SHOWN: usize = 100_000;

/// A value as text, the end left out where it is long.
fn shown(value: &impl Debug) -> String {
    let text = format!("{value:?}");
    match text.char_indices().nth(SHOWN) {
        Some((end, _)) => format!("{} ..", &text[..end]),
        None => text,
    }
}

/// Ends the program with the whole case if a buffer has not the wanted contents between its guards.
pub fn compare_buffer<T: Element>(case: &impl Debug, what: &str, buffer: &Buffer<T>, wanted: &[T]) {
    compare(case, what, buffer.contents(), wanted);
    compare(
        case,
        &format!("{what}: guards kept"),
        buffer.guards_kept(),
        true,
    );
}

// ---- counts

/// How often each class of case occurred in one call's section.
pub struct Counts {
    call: &'static str,
    cases: u64,
    classes: BTreeMap<String, u64>,
}

impl Counts {
    pub fn new(call: &'static str) -> Counts {
        Counts {
            call,
            cases: 0,
            classes: BTreeMap::new(),
        }
    }

    /// Classes that must occur.
    pub fn require(&mut self, classes: &[&str]) {
        for class in classes {
            self.classes.insert(class.to_string(), 0);
        }
    }

    /// The call must serve, refuse with each of the numbers, and meet each two of them at once. The
    /// numbers are in the order of the tests.
    pub fn require_refusals(&mut self, numbers: &[u64]) {
        self.require_tests(&names(numbers));
    }

    /// The same for tests by name, where one number is tested twice.
    pub fn require_tests(&mut self, names: &[String]) {
        self.require(&["served"]);
        for (i, first) in names.iter().enumerate() {
            self.require(&[&refused(first)]);
            for later in &names[i + 1..] {
                self.require(&[&before(first, later)]);
            }
        }
    }

    pub fn add(&mut self, class: &str) {
        match self.classes.get_mut(class) {
            Some(count) => *count += 1,
            None => panic!("{}: the class '{class}' is not required", self.call),
        }
    }

    pub fn add_if(&mut self, holds: bool, class: &str) {
        if holds {
            self.add(class);
        }
    }

    /// One case, with the numbers of all tests that hold of it, in the order of the tests.
    pub fn add_case(&mut self, offences: &[u64]) {
        self.add_tested_case(&names(offences));
    }

    /// The same with the names of the tests.
    pub fn add_tested_case(&mut self, offences: &[String]) {
        self.cases += 1;
        match offences.split_first() {
            None => self.add("served"),
            Some((first, later)) => {
                self.add(&refused(first));
                for name in later {
                    self.add(&before(first, name));
                }
            }
        }
    }

    pub fn cases(&self) -> u64 {
        self.cases
    }

    /// Prints the table, and tells whether each class occurred.
    pub fn report(&self) -> bool {
        println!("{}: {} cases", self.call, self.cases);
        for (class, count) in &self.classes {
            let missing = if *count == 0 { "   MISSING" } else { "" };
            println!("{count:>9}  {class}{missing}");
        }
        self.classes.values().all(|count| *count > 0)
    }
}

fn names(numbers: &[u64]) -> Vec<String> {
    numbers.iter().map(u64::to_string).collect()
}

fn refused(name: &str) -> String {
    format!("refused with {name}")
}

fn before(first: &str, later: &str) -> String {
    format!("{first} before {later}")
}
