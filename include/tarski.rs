//! Safe calls of libtarski.a for Rust: include this file as a module and link the library (`-L crates/tarski/out -l static=tarski`).
//! `include/tarski.h` has what holds of all calls; `Err` carries the refusal, and README.md has its table.

use std::fmt;
use std::mem::{offset_of, size_of};

/// The version of this module and of the library beside it. New in 0.7.0: a point that stands on a card more than once counts once in every query. In 0.6.0:
/// cards of points in the plane, which every call on cards but `value` takes, `value_at` and the refusal 18; `LONGEST_CARD` has grown, and
/// `LONGEST_LINE_CARD` is what it was. In 0.5.0: `query_all` and `ask_all`. Since 0.4.0 a query gives its `Counts`, in which `number` is what it gave before.
pub const VERSION: (u32, u32, u32) = (0, 7, 0);
/// The most polynomials and the most points of a card, and the most rows of a run.
pub const MOST_POLYNOMIALS: usize = 8;
pub const MOST_POINTS: usize = 64;
pub const MOST_ROWS: usize = 64;
/// The most questions that a run asks.
pub const MOST_QUESTIONS: usize = 593;
/// The longest card of either kind, in bytes; read one byte more from a stream, or a card that is too long looks sound.
pub const LONGEST_CARD: usize = 590;
/// The longest card of points on the line: `write` and `draw` make no other, and need no more room.
pub const LONGEST_LINE_CARD: usize = 318;
/// The most bytes of stack that a call uses.
pub const MOST_STACK: usize = 32768;

/// The number of a sign condition: digit j to the base 3 is polynomial j's sign, 0 for 0, 1 for +, 2 for −.
#[repr(transparent)]
#[derive(Clone, Copy, Debug, Default, PartialEq, Eq, PartialOrd, Ord, Hash)]
pub struct Pattern(pub u16);

/// The number of a product of powers: digit j to the base 3 is polynomial j's power.
#[repr(transparent)]
#[derive(Clone, Copy, Debug, Default, PartialEq, Eq, PartialOrd, Ord, Hash)]
pub struct Product(pub u16);

/// Why a call is refused: a number from 1 to 18.
#[repr(transparent)]
#[derive(Clone, Copy, Debug, PartialEq, Eq, PartialOrd, Ord, Hash)]
pub struct Refusal(pub u16);

impl Refusal {
    pub const WRONG_LENGTH: Refusal = Refusal(1);
    pub const WRONG_BYTE: Refusal = Refusal(2);
    pub const WRONG_COUNT: Refusal = Refusal(3);
    pub const WRONG_OFFSET: Refusal = Refusal(4);
    pub const WRONG_COEFFICIENT: Refusal = Refusal(5);
    pub const WRONG_POINT: Refusal = Refusal(6);
    pub const LATE: Refusal = Refusal(7);
    pub const BAD_FIRST: Refusal = Refusal(8);
    pub const BAD_LATER: Refusal = Refusal(9);
    pub const NO_COUNTS: Refusal = Refusal(10);
    pub const WRONG_LIST: Refusal = Refusal(11);
    pub const NO_SOLUTION: Refusal = Refusal(12);
    pub const WRONG_PRODUCT: Refusal = Refusal(13);
    pub const PAST_LAST: Refusal = Refusal(14);
    pub const TOO_SHORT: Refusal = Refusal(15);
    pub const WRONG_DEGREE: Refusal = Refusal(16);
    pub const ZERO_TOP: Refusal = Refusal(17);
    pub const WRONG_TERMS: Refusal = Refusal(18);

    /// What the number means, in words.
    pub fn text(self) -> &'static str {
        match self {
            Refusal::WRONG_LENGTH => "the card is shorter or longer than it says, or a list of coefficients is not as long as the degrees say",
            Refusal::WRONG_BYTE => "byte 0 or byte 3 is wrong",
            Refusal::WRONG_COUNT => "s is not 1 to 8, or n is above 64",
            Refusal::WRONG_OFFSET => "an offset is not where its body begins",
            Refusal::WRONG_COEFFICIENT => "a coefficient is outside -1,000,000 to 1,000,000",
            Refusal::WRONG_POINT => "a point is outside -100 to 100, or falls",
            Refusal::LATE => "an answer after the run was done or closed; rows wanted before it is done or after it closed",
            Refusal::BAD_FIRST => "the first answer is below 0 or above 64",
            Refusal::BAD_LATER => "a later answer is outside -n .. n",
            Refusal::NO_COUNTS => "a round's answers fit no counts",
            Refusal::WRONG_LIST => {
                "the solver's list does not rise, is over 64 long, has a pattern above 3^s - 1, or there are not as many numbers as patterns"
            }
            Refusal::NO_SOLUTION => "no whole numbers with absolute values adding up to at most 64 have these queries",
            Refusal::WRONG_PRODUCT => "the product number is above 3^s - 1",
            Refusal::PAST_LAST => "there is no polynomial, or no row, at this position",
            Refusal::TOO_SHORT => "an output slice is too short",
            Refusal::WRONG_DEGREE => "a degree is above 6",
            Refusal::ZERO_TOP => "the top coefficient is 0 though the degree is not",
            Refusal::WRONG_TERMS => {
                "of a polynomial in the plane: over 9 terms, powers above 6 together, terms that do not rise, or a coefficient of 0"
            }
            _ => "no such refusal",
        }
    }
}

impl fmt::Display for Refusal {
    fn fmt(&self, out: &mut fmt::Formatter) -> fmt::Result {
        write!(out, "refused by {}: {}", self.0, self.text())
    }
}

impl std::error::Error for Refusal {}

/// Why a list of products is refused: the refusal, and for a bad product where in the list the first one stands, from 0.
#[derive(Clone, Copy, Debug, PartialEq, Eq, Hash)]
pub struct ListRefusal {
    pub refusal: Refusal,
    pub position: Option<usize>,
}

impl fmt::Display for ListRefusal {
    fn fmt(&self, out: &mut fmt::Formatter) -> fmt::Result {
        match self.position {
            Some(position) => write!(out, "{}, at position {position}", self.refusal),
            None => self.refusal.fmt(out),
        }
    }
}

impl std::error::Error for ListRefusal {}

impl From<ListRefusal> for Refusal {
    fn from(list: ListRefusal) -> Refusal {
        list.refusal
    }
}

/// The Tarski query of a product: at how many points it is positive, at how many negative and at how many zero, each distinct point counted once, so that
/// they add up to the distinct points; and the number that the panel shows, positive less negative.
#[derive(Clone, Copy, Debug, Default, PartialEq, Eq, Hash)]
pub struct Counts {
    pub number: i64,
    pub positive: u16,
    pub negative: u16,
    pub zero: u16,
}

/// An opened card: the signs of its polynomials at its distinct points.
#[repr(C)]
#[derive(Clone)]
pub struct Opened {
    refusal: u16,
    polynomials: usize,
    points: usize,
    positive: [u64; 8],
    negative: [u64; 8],
}

/// The record of a run.
#[repr(C)]
#[derive(Clone)]
pub struct Run {
    polynomials: usize,
    asked: usize,
    phase: u8,
    round: usize,
    points: u64,
    rows: usize,
    patterns: [u16; 64],
    counts: [u16; 64],
    products: [u16; 64],
    answered: usize,
    answers: [i8; 128],
}

/// What an answer gives: the next product to ask, done, or a refusal.
#[derive(Clone, Copy, Debug, PartialEq, Eq)]
pub enum Step {
    Ask(Product),
    Done,
    Refused(Refusal),
}

mod c {
    use super::{Opened, Pattern, Product, Run};

    #[repr(C)]
    pub struct Card {
        pub polynomials: usize,
        pub points: usize,
        pub refusal: u16,
    }

    #[repr(C)]
    pub struct Number {
        pub number: i64,
        pub refusal: u16,
    }

    #[repr(C)]
    pub struct Counts {
        pub number: i64,
        pub positive: u16,
        pub negative: u16,
        pub zero: u16,
        pub refusal: u16,
    }

    #[repr(C)]
    pub struct Numbered {
        pub position: usize,
        pub refusal: u16,
    }

    #[repr(C)]
    pub struct Step {
        pub kind: u16,
        pub value: u16,
    }

    #[repr(C)]
    pub struct Row {
        pub pattern: Pattern,
        pub count: u16,
        pub refusal: u16,
    }

    #[repr(C)]
    pub struct Copied {
        pub rows: usize,
        pub refusal: u16,
    }

    #[repr(C)]
    pub struct Written {
        pub length: usize,
        pub refusal: u16,
    }

    extern "C" {
        pub fn tarski_check(card: *const u8, length: usize) -> Card;
        pub fn tarski_value(card: *const u8, length: usize, position: usize, x: i8) -> Number;
        pub fn tarski_value_at(card: *const u8, length: usize, position: usize, x: i64, y: i64) -> Number;
        pub fn tarski_query(card: *const u8, length: usize, product: Product) -> Counts;
        pub fn tarski_open(card: *const u8, length: usize) -> Opened;
        pub fn tarski_ask(card: *const Opened, product: Product) -> Counts;
        pub fn tarski_query_all(card: *const u8, length: usize, products: *const Product, count: usize, out: *mut i64, room: usize) -> Numbered;
        pub fn tarski_ask_all(card: *const Opened, products: *const Product, count: usize, out: *mut i64, room: usize) -> Numbered;
        pub fn tarski_write(
            degrees: *const usize,
            degree_count: usize,
            coefficients: *const i64,
            coefficient_count: usize,
            points: *const i64,
            point_count: usize,
            out: *mut u8,
            room: usize,
        ) -> Written;
        pub fn tarski_draw(seed: u32, polynomials: usize, points: usize, degree: usize, out: *mut u8, room: usize) -> Written;
        pub fn tarski_adapted(s: usize, patterns: *const Pattern, count: usize, out: *mut Product, room: usize) -> u16;
        pub fn tarski_solve(s: usize, patterns: *const Pattern, count: usize, numbers: *const i64, number_count: usize, out: *mut i64, room: usize) -> u16;
        pub fn tarski_start(run: *mut Run, s: usize) -> Step;
        pub fn tarski_answer(run: *mut Run, answer: i64) -> Step;
        pub fn tarski_asked(run: *const Run) -> usize;
        pub fn tarski_row(run: *const Run, position: usize) -> Row;
        pub fn tarski_rows(run: *const Run, patterns: *mut Pattern, room: usize, counts: *mut u16, count_room: usize) -> Copied;
    }
}

// The records are laid out as the library has them, and as include/tarski.h says.
const _: () = {
    assert!(size_of::<usize>() == 8 && size_of::<Pattern>() == 2 && size_of::<Product>() == 2);
    assert!(size_of::<c::Card>() == 24 && offset_of!(c::Card, points) == 8 && offset_of!(c::Card, refusal) == 16);
    assert!(size_of::<c::Number>() == 16 && offset_of!(c::Number, refusal) == 8);
    assert!(size_of::<c::Counts>() == 16 && offset_of!(c::Counts, positive) == 8 && offset_of!(c::Counts, negative) == 10);
    assert!(offset_of!(c::Counts, zero) == 12 && offset_of!(c::Counts, refusal) == 14);
    assert!(size_of::<c::Numbered>() == 16 && offset_of!(c::Numbered, refusal) == 8);
    assert!(size_of::<Opened>() == 152 && offset_of!(Opened, polynomials) == 8 && offset_of!(Opened, points) == 16);
    assert!(offset_of!(Opened, positive) == 24 && offset_of!(Opened, negative) == 88);
    assert!(size_of::<Run>() == 568 && offset_of!(Run, asked) == 8 && offset_of!(Run, phase) == 16 && offset_of!(Run, round) == 24);
    assert!(offset_of!(Run, points) == 32 && offset_of!(Run, rows) == 40 && offset_of!(Run, patterns) == 48 && offset_of!(Run, counts) == 176);
    assert!(offset_of!(Run, products) == 304 && offset_of!(Run, answered) == 432 && offset_of!(Run, answers) == 440);
    assert!(size_of::<c::Step>() == 4 && offset_of!(c::Step, value) == 2);
    assert!(size_of::<c::Row>() == 6 && offset_of!(c::Row, count) == 2 && offset_of!(c::Row, refusal) == 4);
    assert!(size_of::<c::Copied>() == 16 && offset_of!(c::Copied, refusal) == 8);
    assert!(size_of::<c::Written>() == 16 && offset_of!(c::Written, refusal) == 8);
};

fn unless<T>(refusal: u16, value: T) -> Result<T, Refusal> {
    if refusal == 0 { Ok(value) } else { Err(Refusal(refusal)) }
}

fn counts(told: c::Counts) -> Result<Counts, Refusal> {
    unless(told.refusal, Counts { number: told.number, positive: told.positive, negative: told.negative, zero: told.zero })
}

fn numbered(said: c::Numbered) -> Result<(), ListRefusal> {
    let position = (said.refusal == Refusal::WRONG_PRODUCT.0).then_some(said.position);
    unless(said.refusal, ()).map_err(|refusal| ListRefusal { refusal, position })
}

fn step(step: c::Step) -> Step {
    match step.kind {
        0 => Step::Ask(Product(step.value)),
        1 => Step::Done,
        _ => Step::Refused(Refusal(step.value)),
    }
}

/// The number of polynomials and of points that a card of either kind says it has: a point that stands twice is two here, and one in every query.
pub fn check(card: &[u8]) -> Result<(usize, usize), Refusal> {
    let said = unsafe { c::tarski_check(card.as_ptr(), card.len()) };
    unless(said.refusal, (said.polynomials, said.points))
}

/// The value at x of the polynomial at a position from 0, on a card of points on the line; any other is refused by 2.
pub fn value(card: &[u8], position: usize, x: i8) -> Result<i64, Refusal> {
    let answer = unsafe { c::tarski_value(card.as_ptr(), card.len(), position, x) };
    unless(answer.refusal, answer.number)
}

/// The value at (x, y) of the polynomial at a position from 0, on a card of either kind; a polynomial in X has its value at x, whatever y is. Refused by the
/// card, by 14, or by 6 where x or y is outside −100 to 100, in this order.
pub fn value_at(card: &[u8], position: usize, x: i64, y: i64) -> Result<i64, Refusal> {
    let answer = unsafe { c::tarski_value_at(card.as_ptr(), card.len(), position, x, y) };
    unless(answer.refusal, answer.number)
}

/// The Tarski query of a product on a card, each distinct point counted once.
pub fn query(card: &[u8], product: Product) -> Result<Counts, Refusal> {
    counts(unsafe { c::tarski_query(card.as_ptr(), card.len(), product) })
}

/// Writes to the front of out the numbers that the panel shows of a list of products on a card, in the list's order: the card is opened once. Refused by
/// the card, by a short slice, or by a bad product, in this order, nothing is written.
pub fn query_all(card: &[u8], products: &[Product], out: &mut [i64]) -> Result<(), ListRefusal> {
    numbered(unsafe { c::tarski_query_all(card.as_ptr(), card.len(), products.as_ptr(), products.len(), out.as_mut_ptr(), out.len()) })
}

/// A card opened once, to ask many products.
pub fn open(card: &[u8]) -> Result<Opened, Refusal> {
    let opened = unsafe { c::tarski_open(card.as_ptr(), card.len()) };
    unless(opened.refusal, opened)
}

impl Opened {
    pub fn polynomials(&self) -> usize {
        self.polynomials
    }

    /// How many distinct points the card has.
    pub fn points(&self) -> usize {
        self.points
    }

    /// Points with known signs in place of a card's: bit k of `positive[j]` and `negative[j]` is point k's, for P(j+1).
    pub fn of_signs(polynomials: usize, points: usize, positive: [u64; 8], negative: [u64; 8]) -> Opened {
        Opened { refusal: 0, polynomials, points, positive, negative }
    }

    pub fn ask(&self, product: Product) -> Result<Counts, Refusal> {
        counts(unsafe { c::tarski_ask(self, product) })
    }

    /// The same as `query_all`, on the opened card.
    pub fn ask_all(&self, products: &[Product], out: &mut [i64]) -> Result<(), ListRefusal> {
        numbered(unsafe { c::tarski_ask_all(self, products.as_ptr(), products.len(), out.as_mut_ptr(), out.len()) })
    }
}

/// Writes to the front of out the card, of points on the line, of polynomials of these degrees, whose coefficients stand in one list, P1 first and constant
/// first, and of these points; its length.
pub fn write(degrees: &[usize], coefficients: &[i64], points: &[i64], out: &mut [u8]) -> Result<usize, Refusal> {
    let written = unsafe {
        c::tarski_write(
            degrees.as_ptr(),
            degrees.len(),
            coefficients.as_ptr(),
            coefficients.len(),
            points.as_ptr(),
            points.len(),
            out.as_mut_ptr(),
            out.len(),
        )
    };
    unless(written.refusal, written.length)
}

/// Writes to the front of out the card of points on the line that a seed draws: so many polynomials of this degree, and so many points; its length.
pub fn draw(seed: u32, polynomials: usize, points: usize, degree: usize, out: &mut [u8]) -> Result<usize, Refusal> {
    let written = unsafe { c::tarski_draw(seed, polynomials, points, degree, out.as_mut_ptr(), out.len()) };
    unless(written.refusal, written.length)
}

/// Writes to the front of out the adapted list of the patterns: as many products.
pub fn adapted(s: usize, patterns: &[Pattern], out: &mut [Product]) -> Result<(), Refusal> {
    let refusal = unsafe { c::tarski_adapted(s, patterns.as_ptr(), patterns.len(), out.as_mut_ptr(), out.len()) };
    unless(refusal, ())
}

/// Writes to the front of out the whole numbers on the patterns whose queries on the adapted list are the numbers.
pub fn solve(s: usize, patterns: &[Pattern], numbers: &[i64], out: &mut [i64]) -> Result<(), Refusal> {
    let refusal = unsafe { c::tarski_solve(s, patterns.as_ptr(), patterns.len(), numbers.as_ptr(), numbers.len(), out.as_mut_ptr(), out.len()) };
    unless(refusal, ())
}

impl Run {
    /// A run for s polynomials; its first question is product 0. Outside 1 to 8 it is refused by 3, and the record is one of zeros.
    pub fn start(s: usize) -> (Run, Step) {
        let mut run = std::mem::MaybeUninit::zeroed();
        unsafe {
            let first = c::tarski_start(run.as_mut_ptr(), s);
            (run.assume_init(), step(first))
        }
    }

    pub fn answer(&mut self, answer: i64) -> Step {
        step(unsafe { c::tarski_answer(self, answer) })
    }

    pub fn asked(&self) -> usize {
        unsafe { c::tarski_asked(self) }
    }

    /// The pattern and count of a row of a done run.
    pub fn row(&self, position: usize) -> Result<(Pattern, u16), Refusal> {
        let row = unsafe { c::tarski_row(self, position) };
        unless(row.refusal, (row.pattern, row.count))
    }

    /// Copies all rows; how many there are.
    pub fn rows(&self, patterns: &mut [Pattern], counts: &mut [u16]) -> Result<usize, Refusal> {
        let copied = unsafe { c::tarski_rows(self, patterns.as_mut_ptr(), patterns.len(), counts.as_mut_ptr(), counts.len()) };
        unless(copied.refusal, copied.rows)
    }
}
