//! Sums and differences of binary numbers, each with a precision of its own, correctly rounded, with the sign of the
//! rounding error and the number of columns that fixed the answer.
//!
//! The functions are a kernel's that is proved, for all inputs, to meet its contract; this crate is its Rust face. It
//! computes nothing itself: every answer is the kernel's.
//!
//! ```
//! use sheafbuckle::{Mode, Number};
//! use std::cmp::Ordering;
//!
//! // 1 + 2^-100 to 53 digits is 1 and a rounding error, known after one column of 64 bits
//! let one = Number::from_double(1.0)?;
//! let tiny = Number::from_double(2f64.powi(-100))?;
//! let sum = one.add(&tiny, 53, Mode::Nearest)?;
//! assert_eq!(sum.number, one);
//! assert_eq!(sum.ternary, Ordering::Less); // the rounded number lies below the exact one
//! assert_eq!(sum.depth, 1);
//! assert_eq!(sum.used, [1, 0]); // no limb of the second operand was needed
//!
//! // to 101 digits the sum is exact, and lies between two neighbouring doubles
//! let exact = one.add(&tiny, 101, Mode::Nearest)?;
//! assert_eq!(exact.ternary, Ordering::Equal);
//! let pair = exact.number.enclose()?;
//! assert_eq!((pair.lower, pair.upper), (1.0, 1.0 + f64::EPSILON));
//! # Ok::<(), sheafbuckle::Refusal>(())
//! ```
//!
//! # Two layers
//!
//! - [`Number`] owns its limbs and is always in good form, so that its functions refuse only what depends on the call: a
//!   target precision out of range, an answer out of range.
//! - [`borrowed`] has the kernel's functions as they are, over borrowed slices. They take anything, damaged numbers and
//!   slices of any length too, allocate nothing, and name the first fault in a fixed order.
//!
//! # Linking
//!
//! The kernel is the archive `libsheafbuckle.a`, which `make` of this crate's repository proves and builds. The build
//! script looks for it in the folder that the environment variable `SHEAFBUCKLE_LIB_DIR` names, else in the repository's
//! `target/staticlib`. The archive needs nothing but the C library's `memset` and `memcpy`.
#![warn(missing_docs)]

pub mod borrowed;
mod mode;
mod number;
mod refusal;

pub use mode::Mode;
pub use number::{Double, Enclosing, Number, Sum};
pub use refusal::{Place, Refusal, Rule};

/// The least precision of a number.
pub const LEAST_PRECISION: u64 = 2;

/// The largest precision of a number.
pub const MOST_PRECISION: u64 = 4096;

/// The least exponent of a regular number, 1 - 2^30.
pub const LEAST_EXPONENT: i32 = 1 - (1 << 30);

/// The largest exponent of a regular number, 2^30 - 1.
pub const MOST_EXPONENT: i32 = (1 << 30) - 1;

/// The bytes of a zero's line, LF included.
pub const SHORTEST_LINE: usize = 15;

/// The bytes of the longest line, LF included.
pub const LONGEST_LINE: usize = 1039;

/// How many limbs a number of this precision has: ceil(precision / 64).
///
/// ```
/// assert_eq!(sheafbuckle::limb_count(64), 1);
/// assert_eq!(sheafbuckle::limb_count(65), 2);
/// ```
pub const fn limb_count(precision: u64) -> u64 {
    precision.div_ceil(64)
}

/// The limbs from the lowest one that is not 0 up to the top; none if all are 0. Takes anything and refuses nothing.
///
/// ```
/// assert_eq!(sheafbuckle::trim(&[0, 7, 0]), &[7, 0]);
/// assert!(sheafbuckle::trim(&[0, 0]).is_empty());
/// ```
pub fn trim(limbs: &[u64]) -> &[u64] {
    &limbs[borrowed::trim(limbs).start..]
}
