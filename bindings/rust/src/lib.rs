//! The checker of a Lustre dialect: a safe wrapper of the two functions that `libexports.a` exports (`include/wuroike.h`).
//!
//! [`check`] and [`check_project`] are these functions on borrowed slices. They give the same answers; the first takes one pass over the
//! project, the second one for each batch of lines. [`Checker`] owns the memory that a check needs and [`Model`] owns a project's records, as
//! a file holds them. No content of any argument makes a call fail: what is no project is refused, with the place.
//!
//! A call takes at most [`STACK`] bytes of stack, which a thread has by default.
#![deny(missing_docs)]
#![deny(unsafe_op_in_unsafe_fn)]

mod model;

pub use model::{Model, WrongFile};

use std::fmt;

/// Most records of an accepted project.
pub const RECORDS: usize = 4096;
/// Most bytes of text of an accepted project.
pub const TEXT: usize = 16384;
/// Least words of work memory.
pub const WORK: usize = 4096;
/// Bytes of stack that are enough for every call: the most that was measured is 1,036,296 (docs/PERFORMANCE.md).
pub const STACK: usize = 1_200_000;

/// A line of the report.
#[repr(C)]
#[derive(Clone, Copy, Debug, Default, PartialEq, Eq, Hash)]
pub struct Line {
    code: u64,
    place: u64,
    number: u64,
    equation: u64,
    step: u64,
    name: u64,
}

/// What a line is about.
#[derive(Clone, Copy, Debug, PartialEq, Eq, Hash)]
#[allow(missing_docs)]
pub enum Place {
    Package,
    Enum,
    Type,
    Constant,
    Node,
}

/// A field's value, if it has one.
fn given(word: u64) -> Option<u64> {
    (word != u64::MAX).then_some(word)
}

impl Line {
    /// The code, 1 to 150: `docs/RULES.md` has the rule of each.
    pub fn code(&self) -> u64 {
        self.code
    }

    /// Whether it is a warning and no error: code 51 alone.
    pub fn is_warning(&self) -> bool {
        self.code == 51
    }

    /// What it is about; none on a line that no call has written.
    pub fn place(&self) -> Option<Place> {
        let places = [Place::Package, Place::Enum, Place::Type, Place::Constant, Place::Node];
        places.get(usize::try_from(self.place).ok()?).copied()
    }

    /// Which one of those, from 0 over the whole project; enums count among the types.
    pub fn number(&self) -> u64 {
        self.number
    }

    /// The equation, from 0 within its node.
    pub fn equation(&self) -> Option<u64> {
        given(self.equation)
    }

    /// A record's distance from the start of its right-hand side or constant value; for code 60 the place in the path.
    pub fn step(&self) -> Option<u64> {
        given(self.step)
    }

    /// The number of the name that it is about.
    pub fn name(&self) -> Option<u64> {
        given(self.name)
    }
}

/// Why a project gets no report: the first of these that applies, with its place.
#[derive(Clone, Copy, Debug, PartialEq, Eq, Hash)]
pub enum Refusal {
    /// 1: kinds and words differ in number, or too many records or bytes of text.
    Sizes,
    /// 2: so few words of work memory.
    ShortWork(u64),
    /// 3: this name is no name, or not above the one before it in byte order, or the 513th.
    BadName(u64),
    /// 4: this record, the first bad one, has an unknown kind.
    BadKind(u64),
    /// 8: this record, the first bad one, has a known kind and a word outside its range, such as a name number that is too large.
    BadWord(u64),
    /// 5: the records are not one project, or there are none and there are names; this is the first that can't stand there.
    NoProject(u64),
    /// 6: a type of more than 68 levels or an expression of more than 60; this is the first record too deep.
    TooDeep(u64),
    /// 7: the report has so many lines, more than were lent (at most 2^64 - 1). As many first lines as fit are written.
    MoreLines(u64),
}

impl Refusal {
    /// Its number, 1 to 8.
    pub fn number(self) -> u64 {
        match self {
            Refusal::Sizes => 1,
            Refusal::ShortWork(_) => 2,
            Refusal::BadName(_) => 3,
            Refusal::BadKind(_) => 4,
            Refusal::BadWord(_) => 8,
            Refusal::NoProject(_) => 5,
            Refusal::TooDeep(_) => 6,
            Refusal::MoreLines(_) => 7,
        }
    }

    /// Its place, 0 where it has none.
    pub fn place(self) -> u64 {
        match self {
            Refusal::Sizes => 0,
            Refusal::ShortWork(at)
            | Refusal::BadName(at)
            | Refusal::BadKind(at)
            | Refusal::BadWord(at)
            | Refusal::NoProject(at)
            | Refusal::TooDeep(at)
            | Refusal::MoreLines(at) => at,
        }
    }
}

impl fmt::Display for Refusal {
    fn fmt(&self, f: &mut fmt::Formatter<'_>) -> fmt::Result {
        write!(f, "refused {} at {}", self.number(), self.place())
    }
}

impl std::error::Error for Refusal {}

/// The numbers of a report.
#[derive(Clone, Copy, Debug, PartialEq, Eq, Hash)]
pub struct Counts {
    /// How many of the lent lines are the report.
    pub lines: usize,
    /// How many edges the search for loops followed.
    pub followed: u64,
}

// What the library exports. A slice is passed as its pointer and its length.
#[link(name = "exports", kind = "static")]
extern "C" {
    fn wuroike_check(
        kinds: *const u8,
        kinds_length: usize,
        words: *const u64,
        words_length: usize,
        text: *const u8,
        text_length: usize,
        work: *mut u64,
        work_length: usize,
        lines: *mut u64,
        lines_length: usize,
        first: *mut u64,
        second: *mut u64,
    ) -> u64;

    fn wuroike_check_project(
        kinds: *const u8,
        kinds_length: usize,
        words: *const u64,
        words_length: usize,
        text: *const u8,
        text_length: usize,
        work: *mut u64,
        work_length: usize,
        lines: *mut Line,
        lines_length: usize,
        first: *mut u64,
        second: *mut u64,
    ) -> u64;
}

/// The answer that the three numbers are.
fn answer(refusal: u64, first: u64, second: u64) -> Result<Counts, Refusal> {
    match refusal {
        0 => Ok(Counts { lines: first as usize, followed: second }),
        1 => Err(Refusal::Sizes),
        2 => Err(Refusal::ShortWork(first)),
        3 => Err(Refusal::BadName(first)),
        4 => Err(Refusal::BadKind(first)),
        5 => Err(Refusal::NoProject(first)),
        6 => Err(Refusal::TooDeep(first)),
        8 => Err(Refusal::BadWord(first)),
        _ => Err(Refusal::MoreLines(first)),
    }
}

/// The check of a project whose records are `kinds` and `words`, with its names in `text`; no records and no text are a project without
/// packages. After a report the first of `lines` are written, after [`Refusal::MoreLines`] as many as there are, and all of `work` is zero after either; after any other refusal nothing is
/// changed.
pub fn check(kinds: &[u8], words: &[u64], text: &[u8], work: &mut [u64], lines: &mut [Line]) -> Result<Counts, Refusal> {
    let (mut first, mut second) = (0, 0);
    // A line is six words without padding, so `lines` is that many words; no slice has more bytes than a usize can count.
    let (line_words, line_count) = (lines.as_mut_ptr().cast::<u64>(), lines.len() * 6);
    // SAFETY: each pointer is that of a live slice or number, with its own length. The borrows keep what is written apart from all else.
    let refusal = unsafe {
        wuroike_check(
            kinds.as_ptr(),
            kinds.len(),
            words.as_ptr(),
            words.len(),
            text.as_ptr(),
            text.len(),
            work.as_mut_ptr(),
            work.len(),
            line_words,
            line_count,
            &mut first,
            &mut second,
        )
    };
    answer(refusal, first, second)
}

/// The same check through the call that stores lines as structs, in batches of `work.len() / 6`: one pass over the project for each batch,
/// where [`check`] takes one pass in all. Its answers and what it leaves are those of [`check`].
pub fn check_project(kinds: &[u8], words: &[u64], text: &[u8], work: &mut [u64], lines: &mut [Line]) -> Result<Counts, Refusal> {
    let (mut first, mut second) = (0, 0);
    // SAFETY: each pointer is that of a live slice or number, with its own length, and `Line` has the layout of the library's line. The
    // borrows keep what is written apart from all else.
    let refusal = unsafe {
        wuroike_check_project(
            kinds.as_ptr(),
            kinds.len(),
            words.as_ptr(),
            words.len(),
            text.as_ptr(),
            text.len(),
            work.as_mut_ptr(),
            work.len(),
            lines.as_mut_ptr(),
            lines.len(),
            &mut first,
            &mut second,
        )
    };
    answer(refusal, first, second)
}

const _: () = assert!(std::mem::size_of::<Line>() == 48 && std::mem::align_of::<Line>() == 8);

/// The report on a model, in a checker's memory until its next call.
#[derive(Clone, Copy, Debug)]
pub struct Report<'a> {
    lines: &'a [Line],
    followed: u64,
}

impl<'a> Report<'a> {
    /// The lines, in order.
    pub fn lines(&self) -> &'a [Line] {
        self.lines
    }

    /// How many edges the search for loops followed.
    pub fn followed(&self) -> u64 {
        self.followed
    }

    /// Whether no line is an error.
    pub fn is_clean(&self) -> bool {
        self.lines.iter().all(Line::is_warning)
    }
}

/// The memory that checks need, used again by each.
#[derive(Clone, Debug)]
pub struct Checker {
    work: Box<[u64]>,
    lines: Box<[Line]>,
}

impl Checker {
    /// A checker with room for so many lines.
    pub fn new(room: usize) -> Checker {
        Checker { work: vec![0; WORK].into(), lines: vec![Line::default(); room].into() }
    }

    /// The report on a model.
    pub fn check(&mut self, model: &Model) -> Result<Report<'_>, Refusal> {
        let told = check(model.kinds(), model.words(), model.text(), &mut self.work, &mut self.lines)?;
        Ok(Report { lines: &self.lines[..told.lines], followed: told.followed })
    }
}
