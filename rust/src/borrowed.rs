//! The kernel's functions as they are, over borrowed slices. Each takes anything, damaged numbers and slices of any length
//! too, asks nothing of its caller, allocates nothing and ends.
//!
//! The structs are those of the C header, field by field. A refusal is a rule's and a place's number, both 0 where nothing
//! is refused; `refusal()` gives it as a [`Refusal`]. Rules 1 to 5 are checked in this order, and within a rule the first
//! operand before the second before the target.
//!
//! ```
//! use sheafbuckle::borrowed::{add, Head};
//! use sheafbuckle::{Place, Rule};
//!
//! let one = Head { precision: 53, exponent: 1, negative: false, zero: false };
//! let mut target = [7; 2];
//!
//! // no limb for the second operand, and a target of one limb too many: the operand is named
//! let sum = add(0, one, &[1 << 63], one, &[], 53, &mut target);
//! let refusal = sum.refusal().unwrap();
//! assert_eq!((refusal.rule, refusal.place), (Rule::Length, Place::Second));
//! assert_eq!(target, [7; 2]); // as it was
//! ```
//!
//! # The boundary
//!
//! The kernel's proofs assume one thing of a caller, which no function can test: each pointer is valid for the length that
//! follows it, the target for writing; the target overlaps no operand; nobody else writes this memory during the call. Here
//! pointer and length always come from one slice, and Rust's borrows say the rest: what is lent as `&` is written by nobody,
//! and what is lent as `&mut` is lent to nobody else.

use crate::refusal::Refusal;

/// A number without its limbs.
///
/// A regular one is worth ± 0.b1 b2 .. bp × 2^exponent, with b1 = 1 and p the precision. Its limbs travel beside it,
/// ceil(p / 64) of them, lowest first: b1 is the top bit of the last limb, and the bits below bp in the first limb are 0. A
/// zero has a sign and a precision, the exponent 0, and limbs that are never looked at, though their count is.
#[derive(Clone, Copy, Debug, PartialEq, Eq, Hash)]
#[repr(C)]
pub struct Head {
    /// 2 to 4096.
    pub precision: u64,
    /// 1 - 2^30 to 2^30 - 1 for a regular number, 0 for a zero.
    pub exponent: i32,
    /// The sign.
    pub negative: bool,
    /// The kind: a zero, or a regular number.
    pub zero: bool,
}

impl Head {
    /// +0 of precision 2, which every refused call answers that answers a number.
    pub const NOTHING: Head = Head { precision: 2, exponent: 0, negative: false, zero: true };
}

/// What a sum answers.
#[derive(Clone, Copy, Debug, PartialEq, Eq)]
#[repr(C)]
pub struct Sum {
    /// The number, whose limbs are in the target.
    pub number: Head,
    /// The fewest 64-bit columns, counted from the top of the larger operand, that fix the answer.
    pub depth: u64,
    /// The limbs used of the first operand.
    pub first: u64,
    /// The limbs used of the second operand.
    pub second: u64,
    /// The sign of the rounded number less the exact one: -1, 0 or 1.
    pub ternary: i8,
    /// The refusal's rule, or 0.
    pub rule: u8,
    /// The refusal's place, or 0.
    pub place: u8,
}

/// What a comparison answers.
#[derive(Clone, Copy, Debug, PartialEq, Eq)]
#[repr(C)]
pub struct Order {
    /// The sign of x - y: -1, 0 or 1.
    pub order: i8,
    /// The refusal's rule, or 0.
    pub rule: u8,
    /// The refusal's place, or 0.
    pub place: u8,
}

/// What a conversion to a double answers.
#[derive(Clone, Copy, Debug, PartialEq)]
#[repr(C)]
pub struct Double {
    /// The double.
    pub value: f64,
    /// The sign of the double less the number: 0 exact, -1 the double lies below, 1 above.
    pub ternary: i8,
    /// The refusal's rule, or 0.
    pub rule: u8,
    /// The refusal's place, or 0.
    pub place: u8,
}

/// The doubles that enclose a number.
#[derive(Clone, Copy, Debug, PartialEq)]
#[repr(C)]
pub struct Pair {
    /// The number's double under down.
    pub lower: f64,
    /// The number's double under up.
    pub upper: f64,
    /// The refusal's rule, or 0.
    pub rule: u8,
    /// The refusal's place, or 0.
    pub place: u8,
}

/// The number of a double or of a line.
#[derive(Clone, Copy, Debug, PartialEq, Eq)]
#[repr(C)]
pub struct Read {
    /// The number; its limbs are in the target where the call has one.
    pub number: Head,
    /// The refusal's rule, or 0.
    pub rule: u8,
    /// The refusal's place, or 0.
    pub place: u8,
}

/// A part of a run of limbs, up to its top.
#[derive(Clone, Copy, Debug, PartialEq, Eq)]
#[repr(C)]
pub struct Run {
    /// The index of the part's lowest limb.
    pub start: usize,
    /// How many limbs it has.
    pub count: usize,
}

/// What was written.
#[derive(Clone, Copy, Debug, PartialEq, Eq)]
#[repr(C)]
pub struct Written {
    /// The bytes written, from the room's start on.
    pub count: usize,
    /// The refusal's rule, or 0.
    pub rule: u8,
    /// The refusal's place, or 0.
    pub place: u8,
}

macro_rules! may_refuse {
    ($($answer:ident)*) => {
        $(impl $answer {
            /// The refusal, if there is one.
            pub fn refusal(&self) -> Option<Refusal> {
                Refusal::of(self.rule, self.place)
            }
        })*
    };
}

may_refuse! { Sum Order Double Pair Read Written }

// the layout that the archive was compiled for
const _: () = {
    assert!(size_of::<Head>() == 16 && size_of::<Sum>() == 48);
    assert!(size_of::<Order>() == 3 && size_of::<Run>() == 16);
    assert!(size_of::<Double>() == 16 && size_of::<Pair>() == 24);
    assert!(size_of::<Read>() == 24 && size_of::<Written>() == 16);
};

#[rustfmt::skip]
mod kernel {
    use super::{Double, Head, Order, Pair, Read, Run, Sum, Written};

    // sheafbuckle.h, function by function
    extern "C" {
        pub fn sheafbuckle_add(
            mode: u8, x: Head, x_limbs: *const u64, x_count: usize, y: Head, y_limbs: *const u64, y_count: usize,
            precision: u64, target: *mut u64, target_count: usize,
        ) -> Sum;
        pub fn sheafbuckle_subtract(
            mode: u8, x: Head, x_limbs: *const u64, x_count: usize, y: Head, y_limbs: *const u64, y_count: usize,
            precision: u64, target: *mut u64, target_count: usize,
        ) -> Sum;
        pub fn sheafbuckle_reround(
            mode: u8, x: Head, x_limbs: *const u64, x_count: usize, precision: u64, target: *mut u64, target_count: usize,
        ) -> Sum;
        pub fn sheafbuckle_compare(
            x: Head, x_limbs: *const u64, x_count: usize, y: Head, y_limbs: *const u64, y_count: usize,
        ) -> Order;
        pub fn sheafbuckle_turn_sign(x: Head) -> Head;
        pub fn sheafbuckle_to_double(mode: u8, x: Head, x_limbs: *const u64, x_count: usize) -> Double;
        pub fn sheafbuckle_enclose(x: Head, x_limbs: *const u64, x_count: usize) -> Pair;
        pub fn sheafbuckle_from_double(value: f64, target: *mut u64, target_count: usize) -> Read;
        pub fn sheafbuckle_trim(limbs: *const u64, count: usize) -> Run;
        pub fn sheafbuckle_write_line(
            x: Head, x_limbs: *const u64, x_count: usize, room: *mut u8, room_count: usize,
        ) -> Written;
        pub fn sheafbuckle_read_head(line: *const u8, line_count: usize) -> Read;
        pub fn sheafbuckle_read_line(line: *const u8, line_count: usize, target: *mut u64, target_count: usize) -> Read;
    }
}

/// x + y, rounded to `precision` digits under `mode`, into the target.
///
/// Exact cancellation gives +0 in every mode; two zeros of one sign give that zero, of two signs +0; a zero and a regular
/// number give the regular number rounded. Refuses by rules 1 to 5: then the number is [`Head::NOTHING`], everything else 0
/// and the target as it was. Refuses by 6 and 7 (place 3): then the number is [`Head::NOTHING`], the ternary value 0, depth
/// and limb counts are reported, and the target's limbs are all 0. Otherwise the target has the answer's limbs, all 0 where
/// the answer is a zero.
pub fn add(mode: u8, x: Head, x_limbs: &[u64], y: Head, y_limbs: &[u64], precision: u64, target: &mut [u64]) -> Sum {
    let (xp, xn, yp, yn) = (x_limbs.as_ptr(), x_limbs.len(), y_limbs.as_ptr(), y_limbs.len());
    // SAFETY: pointers and lengths of borrowed slices; `target` is borrowed alone, so it overlaps no operand.
    unsafe { kernel::sheafbuckle_add(mode, x, xp, xn, y, yp, yn, precision, target.as_mut_ptr(), target.len()) }
}

/// x - y: the sum of x and y with its sign turned. Refusals and the target as for [`add`].
pub fn subtract(mode: u8, x: Head, x_limbs: &[u64], y: Head, y_limbs: &[u64], precision: u64, target: &mut [u64]) -> Sum {
    let (xp, xn, yp, yn) = (x_limbs.as_ptr(), x_limbs.len(), y_limbs.as_ptr(), y_limbs.len());
    // SAFETY: pointers and lengths of borrowed slices; `target` is borrowed alone, so it overlaps no operand.
    unsafe { kernel::sheafbuckle_subtract(mode, x, xp, xn, y, yp, yn, precision, target.as_mut_ptr(), target.len()) }
}

/// x rounded to `precision` digits: answers, refuses and leaves the target as the sum of x and a zero does; keeps a zero's
/// sign. No refusal has place 2, and `second` is 0.
pub fn re_round(mode: u8, x: Head, x_limbs: &[u64], precision: u64, target: &mut [u64]) -> Sum {
    let (xp, xn) = (x_limbs.as_ptr(), x_limbs.len());
    // SAFETY: pointers and lengths of borrowed slices; `target` is borrowed alone, so it does not overlap the operand.
    unsafe { kernel::sheafbuckle_reround(mode, x, xp, xn, precision, target.as_mut_ptr(), target.len()) }
}

/// The sign of x - y; the two zeros are equal. Refuses by rules 2 to 5, and the order is 0 then.
pub fn compare(x: Head, x_limbs: &[u64], y: Head, y_limbs: &[u64]) -> Order {
    // SAFETY: pointers and lengths of borrowed slices; nothing is written.
    unsafe { kernel::sheafbuckle_compare(x, x_limbs.as_ptr(), x_limbs.len(), y, y_limbs.as_ptr(), y_limbs.len()) }
}

/// The number with the other sign, every other field as it was. Takes anything and refuses nothing.
pub fn turn_sign(x: Head) -> Head {
    // SAFETY: no pointer is handed over.
    unsafe { kernel::sheafbuckle_turn_sign(x) }
}

/// The double that a mode selects for x, with 53 bits and an unbounded exponent, whose range is judged after that. A zero
/// gives the zero of its sign. Refuses by rules 1 to 5, 12 and 13; the value is +0 then, the ternary value 0.
pub fn to_double(mode: u8, x: Head, x_limbs: &[u64]) -> Double {
    // SAFETY: pointer and length of a borrowed slice; nothing is written.
    unsafe { kernel::sheafbuckle_to_double(mode, x, x_limbs.as_ptr(), x_limbs.len()) }
}

/// The double of x under down and that under up. Refuses by rules 2 to 5, 12 and 13, the lower end's refusal first; both
/// ends are +0 then.
pub fn enclose(x: Head, x_limbs: &[u64]) -> Pair {
    // SAFETY: pointer and length of a borrowed slice; nothing is written.
    unsafe { kernel::sheafbuckle_enclose(x, x_limbs.as_ptr(), x_limbs.len()) }
}

/// The number of a double: precision 53, exact, subnormals normalised; the zeros with their signs. The target is one limb.
/// Refuses by rule 3 (place 3) where it is not, then by 14 (place 1); the number is [`Head::NOTHING`] then and the target as
/// it was.
pub fn from_double(value: f64, target: &mut [u64]) -> Read {
    // SAFETY: pointer and length of a slice that is borrowed alone.
    unsafe { kernel::sheafbuckle_from_double(value, target.as_mut_ptr(), target.len()) }
}

/// The limbs from the lowest one that is not 0 up to the top, as a start and a count; none if all are 0: then the start is
/// the number of limbs. Takes anything and refuses nothing. [`trim`](crate::trim) gives them as a slice.
pub fn trim(limbs: &[u64]) -> Run {
    // SAFETY: pointer and length of a borrowed slice; nothing is written.
    unsafe { kernel::sheafbuckle_trim(limbs.as_ptr(), limbs.len()) }
}

/// Writes x as one line of lowercase hexadecimal, ending in LF, from the room's start on: kind byte (00 positive, 01
/// negative, 02 +0, 03 -0), precision in two bytes, exponent in four (two's complement), then a regular number's limbs, top
/// first. No byte past the line changes. Refuses by rules 2 to 5, then by 3 (place 3) where the room is too short; the count
/// is 0 then and the room as it was.
pub fn write_line(x: Head, x_limbs: &[u64], room: &mut [u8]) -> Written {
    let (xp, xn) = (x_limbs.as_ptr(), x_limbs.len());
    // SAFETY: pointers and lengths of borrowed slices; `room` is borrowed alone, so it does not overlap the limbs.
    unsafe { kernel::sheafbuckle_write_line(x, xp, xn, room.as_mut_ptr(), room.len()) }
}

/// The number that a line holds, without its limbs: its precision says how many limbs [`read_line`] needs. Checks, in this
/// order: at least 15 bytes (8), digits and LF (9), kind (10), precision (2), exact size (8), exponent (4); place 1. The
/// number is [`Head::NOTHING`] then. Does not look at the limbs' form.
pub fn read_head(line: &[u8]) -> Read {
    // SAFETY: pointer and length of a borrowed slice; nothing is written.
    unsafe { kernel::sheafbuckle_read_head(line.as_ptr(), line.len()) }
}

/// The number that a line holds, its limbs into the target, all 0 for a zero. Checks what [`read_head`] does, then the
/// target's length (3, place 3), then the limbs' form (5, place 1). Refused, the number is [`Head::NOTHING`] and the target
/// as it was.
pub fn read_line(line: &[u8], target: &mut [u64]) -> Read {
    let (lp, ln) = (line.as_ptr(), line.len());
    // SAFETY: pointers and lengths of borrowed slices; `target` is borrowed alone, so it does not overlap the line.
    unsafe { kernel::sheafbuckle_read_line(lp, ln, target.as_mut_ptr(), target.len()) }
}
