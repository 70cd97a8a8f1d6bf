use std::cmp::Ordering;
use std::fmt;
use std::ops::Neg;

use crate::borrowed::{self, Head};
use crate::{limb_count, Mode, Refusal, LONGEST_LINE, MOST_PRECISION};

/// A number that owns its limbs: a sign, a kind (regular or zero), a precision, an exponent and limbs, always in good form.
///
/// A regular number is worth ± 0.b1 b2 .. bp × 2^e, with b1 = 1, p the precision and e the exponent. It has ceil(p / 64)
/// limbs, lowest first; b1 is the top bit of the last one, and the bits below bp in the first one are 0. A zero has a sign
/// and a precision, the exponent 0, and limbs that are all 0 here.
///
/// Numbers are ordered and equal by their values, whatever their precisions, and the two zeros are equal;
/// [`identical`](Number::identical) compares every field.
///
/// ```
/// use sheafbuckle::Number;
///
/// // -0.11 in binary, times 2^1
/// let x = Number::regular(true, 2, 1, vec![3 << 62])?;
/// assert_eq!(x, Number::from_double(-1.5)?);
/// assert!(x < Number::zero(false, 64)?);
/// assert_eq!(x.to_string(), "-0x0.cp1");
/// # Ok::<(), sheafbuckle::Refusal>(())
/// ```
#[derive(Clone)]
pub struct Number {
    head: Head,
    limbs: Vec<u64>,
}

/// A sum, rounded, with what is known about it.
#[derive(Clone, Debug)]
pub struct Sum {
    /// The rounded number.
    pub number: Number,
    /// The ternary value, the sign of the rounded number less the exact one: `Less` where the rounded number lies below,
    /// `Equal` where it is exact.
    pub ternary: Ordering,
    /// The fewest 64-bit columns, counted from the top of the larger operand, that fix the answer, whatever stands in the
    /// others.
    pub depth: u64,
    /// The limbs used of the first operand and of the second.
    pub used: [u64; 2],
}

/// The double that a mode selects for a number, and on which side of the number it lies.
#[derive(Clone, Copy, Debug, PartialEq)]
pub enum Double {
    /// The number itself.
    Exact(f64),
    /// The double lies below the number.
    Below(f64),
    /// The double lies above the number.
    Above(f64),
}

impl Double {
    /// The double alone.
    pub fn value(self) -> f64 {
        match self {
            Double::Exact(value) | Double::Below(value) | Double::Above(value) => value,
        }
    }

    /// The sign of the double less the number.
    pub fn ternary(self) -> Ordering {
        match self {
            Double::Exact(_) => Ordering::Equal,
            Double::Below(_) => Ordering::Less,
            Double::Above(_) => Ordering::Greater,
        }
    }
}

/// Two doubles with a number between them: `lower` ≤ number ≤ `upper`, equal exactly when the number is a double.
#[derive(Clone, Copy, Debug, PartialEq)]
pub struct Enclosing {
    /// The number's double under [`Mode::Down`].
    pub lower: f64,
    /// The number's double under [`Mode::Up`].
    pub upper: f64,
}

/// An answer, or the refusal if there is one.
fn accepted<T>(answer: T, refusal: Option<Refusal>) -> Result<T, Refusal> {
    match refusal {
        None => Ok(answer),
        Some(refusal) => Err(refusal),
    }
}

/// Limbs for a number of this precision; a precision out of range is the kernel's to refuse, and takes no memory.
fn room_for(precision: u64) -> Vec<u64> {
    vec![0; limb_count(precision.min(MOST_PRECISION)) as usize]
}

/// The sum of a kernel's answer and the target it has written.
fn summed(sum: borrowed::Sum, limbs: Vec<u64>) -> Result<Sum, Refusal> {
    let (ternary, used) = (sum.ternary.cmp(&0), [sum.first, sum.second]);
    let number = Number { head: sum.number, limbs };
    accepted(Sum { number, ternary, depth: sum.depth, used }, sum.refusal())
}

/// Constructors.
impl Number {
    /// The number of these fields and limbs, of any kind. Takes anything, and refuses by rules 2 to 5 (place 1) what is not
    /// in good form. What stands in a zero's limbs has no meaning and becomes 0.
    pub fn new(head: Head, limbs: Vec<u64>) -> Result<Number, Refusal> {
        // comparing checks exactly this; the other side is a zero in good form
        accepted((), borrowed::compare(head, &limbs, Head::NOTHING, &[0]).refusal())?;
        let mut number = Number { head, limbs };
        if head.zero {
            number.limbs.fill(0);
        }
        Ok(number)
    }

    /// The regular number of these limbs, lowest first. Refuses by rules 2 to 5 (place 1).
    ///
    /// ```
    /// use sheafbuckle::{Number, Rule};
    ///
    /// let third = Number::regular(false, 128, -1, vec![0xaaaaaaaaaaaaaaaa; 2])?;
    /// assert_eq!(third.to_string(), "0x0.aaaaaaaaaaaaaaaaaaaaaaaaaaaaaaaap-1");
    /// let loose = Number::regular(false, 53, 0, vec![1]).unwrap_err();
    /// assert_eq!(loose.rule, Rule::Form);
    /// # Ok::<(), sheafbuckle::Refusal>(())
    /// ```
    pub fn regular(negative: bool, precision: u64, exponent: i32, limbs: Vec<u64>) -> Result<Number, Refusal> {
        Number::new(Head { precision, exponent, negative, zero: false }, limbs)
    }

    /// The zero of a sign and a precision. Refuses a precision out of range by rule 2 (place 1).
    pub fn zero(negative: bool, precision: u64) -> Result<Number, Refusal> {
        Number::new(Head { precision, exponent: 0, negative, zero: true }, room_for(precision))
    }

    /// The number of a double: precision 53, exact, subnormals normalised; the zeros with their signs. Refuses what is
    /// infinite or NaN by rule 14.
    ///
    /// ```
    /// use sheafbuckle::{Number, Rule};
    ///
    /// let x = Number::from_double(-0.75)?;
    /// assert_eq!((x.is_negative(), x.precision(), x.exponent(), x.limbs()), (true, 53, 0, &[3 << 62][..]));
    /// assert_eq!(Number::from_double(f64::NAN).unwrap_err().rule, Rule::NoNumber);
    /// # Ok::<(), sheafbuckle::Refusal>(())
    /// ```
    pub fn from_double(value: f64) -> Result<Number, Refusal> {
        let mut limbs = vec![0];
        let read = borrowed::from_double(value, &mut limbs);
        accepted(Number { head: read.number, limbs }, read.refusal())
    }

    /// The number that a stored line holds; the line ends in LF. Checks, in this order: at least 15 bytes (8), digits and LF
    /// (9), kind (10), precision (2), exact size (8), exponent (4), the limbs' form (5). A line that is accepted is the one
    /// that [`write_line`](Number::write_line) gives for the number.
    ///
    /// ```
    /// use sheafbuckle::{Number, Rule};
    ///
    /// let x = Number::read_line("000035000000018000000000000000\n")?;
    /// assert_eq!(x, Number::from_double(1.0)?);
    /// assert_eq!(Number::read_line("000035000000018000000000000000").unwrap_err().rule, Rule::Byte);
    /// # Ok::<(), sheafbuckle::Refusal>(())
    /// ```
    pub fn read_line(line: impl AsRef<[u8]>) -> Result<Number, Refusal> {
        let line = line.as_ref();
        let head = borrowed::read_head(line);
        accepted((), head.refusal())?;
        let mut limbs = room_for(head.number.precision);
        let read = borrowed::read_line(line, &mut limbs);
        accepted(Number { head: read.number, limbs }, read.refusal())
    }
}

/// Fields.
impl Number {
    /// Whether the sign is minus.
    pub fn is_negative(&self) -> bool {
        self.head.negative
    }

    /// Whether it is a zero, of either sign.
    pub fn is_zero(&self) -> bool {
        self.head.zero
    }

    /// The precision, in binary digits.
    pub fn precision(&self) -> u64 {
        self.head.precision
    }

    /// The exponent; 0 for a zero.
    pub fn exponent(&self) -> i32 {
        self.head.exponent
    }

    /// The limbs, lowest first; all 0 for a zero.
    pub fn limbs(&self) -> &[u64] {
        &self.limbs
    }

    /// Everything but the limbs, as [`borrowed`] takes it.
    pub fn head(&self) -> Head {
        self.head
    }

    /// The head and the limbs.
    pub fn into_parts(self) -> (Head, Vec<u64>) {
        (self.head, self.limbs)
    }

    /// Whether every field and every limb is the same: sign, kind, precision, exponent, digits.
    ///
    /// ```
    /// use sheafbuckle::Number;
    ///
    /// let (plus, minus) = (Number::from_double(0.0)?, Number::from_double(-0.0)?);
    /// assert!(plus == minus && !plus.identical(&minus));
    /// # Ok::<(), sheafbuckle::Refusal>(())
    /// ```
    pub fn identical(&self, other: &Number) -> bool {
        self.head == other.head && self.limbs == other.limbs
    }
}

/// What the kernel does.
impl Number {
    /// self + other, rounded to `precision` digits. Exact cancellation gives +0 in every mode; two zeros of one sign give
    /// that zero, of two signs +0; a zero and a regular number give the regular number rounded.
    ///
    /// Refuses a precision out of range by rule 2, and an answer out of range by 6 and 7 (place 3).
    /// [`borrowed::add`] reports the depth of a sum that is refused by 6 or 7, too.
    ///
    /// ```
    /// use sheafbuckle::{Mode, Number, Rule, MOST_EXPONENT};
    ///
    /// let most = Number::regular(false, 2, MOST_EXPONENT, vec![1 << 63])?;
    /// assert_eq!(most.add(&most, 2, Mode::Nearest).unwrap_err().rule, Rule::TooLarge);
    /// # Ok::<(), sheafbuckle::Refusal>(())
    /// ```
    pub fn add(&self, other: &Number, precision: u64, mode: Mode) -> Result<Sum, Refusal> {
        let mut limbs = room_for(precision);
        let (x, y) = (self, other);
        let sum = borrowed::add(mode.number(), x.head, &x.limbs, y.head, &y.limbs, precision, &mut limbs);
        summed(sum, limbs)
    }

    /// self - other: the sum with the other's sign turned. Refuses as [`add`](Number::add) does.
    ///
    /// ```
    /// use sheafbuckle::{Mode, Number};
    ///
    /// let x = Number::from_double(0.1)?;
    /// let none = x.subtract(&x, 53, Mode::Down)?;
    /// assert!(none.number.is_zero() && !none.number.is_negative());
    /// assert!(none.ternary.is_eq());
    /// # Ok::<(), sheafbuckle::Refusal>(())
    /// ```
    pub fn subtract(&self, other: &Number, precision: u64, mode: Mode) -> Result<Sum, Refusal> {
        let mut limbs = room_for(precision);
        let (x, y) = (self, other);
        let sum = borrowed::subtract(mode.number(), x.head, &x.limbs, y.head, &y.limbs, precision, &mut limbs);
        summed(sum, limbs)
    }

    /// The number rounded to `precision` digits; reports as the sum with a zero does, and keeps a zero's sign. Refuses a
    /// precision out of range by rule 2, and by 6 what rounds beyond the range (place 3).
    ///
    /// ```
    /// use sheafbuckle::{Mode, Number};
    ///
    /// let sum = Number::from_double(0.7)?.re_round(2, Mode::Up)?;
    /// assert_eq!(sum.number, Number::from_double(0.75)?);
    /// assert!(sum.ternary.is_gt());
    /// # Ok::<(), sheafbuckle::Refusal>(())
    /// ```
    pub fn re_round(&self, precision: u64, mode: Mode) -> Result<Sum, Refusal> {
        let mut limbs = room_for(precision);
        let sum = borrowed::re_round(mode.number(), self.head, &self.limbs, precision, &mut limbs);
        summed(sum, limbs)
    }

    /// The order of the values; the two zeros are equal. `<`, `==`, [`Ord::cmp`] and the like are this order.
    pub fn compare(&self, other: &Number) -> Ordering {
        // both are in good form, so nothing is refused
        borrowed::compare(self.head, &self.limbs, other.head, &other.limbs).order.cmp(&0)
    }

    /// The number with the other sign; `-x` is the same.
    pub fn negate(&self) -> Number {
        Number { head: borrowed::turn_sign(self.head), limbs: self.limbs.clone() }
    }

    /// The double that a mode selects, with 53 bits and an unbounded exponent, whose range is judged after that. A zero
    /// gives the zero of its sign. Refuses by 12 what lies beyond the largest double, and by 13 what lies below 2^-1022 in
    /// size: no answer is infinite, NaN or subnormal.
    ///
    /// ```
    /// use sheafbuckle::{Double, Mode, Number};
    ///
    /// // 1 + 2^-63
    /// let x = Number::regular(false, 64, 1, vec![(1 << 63) + 1])?;
    /// assert_eq!(x.to_double(Mode::TowardZero)?, Double::Below(1.0));
    /// assert_eq!(x.to_double(Mode::Up)?, Double::Above(1.0 + f64::EPSILON));
    /// # Ok::<(), sheafbuckle::Refusal>(())
    /// ```
    pub fn to_double(&self, mode: Mode) -> Result<Double, Refusal> {
        let double = borrowed::to_double(mode.number(), self.head, &self.limbs);
        let answer = match double.ternary.cmp(&0) {
            Ordering::Equal => Double::Exact(double.value),
            Ordering::Less => Double::Below(double.value),
            Ordering::Greater => Double::Above(double.value),
        };
        accepted(answer, double.refusal())
    }

    /// The two doubles that enclose the number: equal exactly when it is a double. Refuses by 12 and 13 where either end is
    /// refused.
    ///
    /// ```
    /// use sheafbuckle::{Enclosing, Number};
    ///
    /// let x = Number::regular(false, 64, 1, vec![(1 << 63) + 1])?;
    /// assert_eq!(x.enclose()?, Enclosing { lower: 1.0, upper: 1.0 + f64::EPSILON });
    /// # Ok::<(), sheafbuckle::Refusal>(())
    /// ```
    pub fn enclose(&self) -> Result<Enclosing, Refusal> {
        let pair = borrowed::enclose(self.head, &self.limbs);
        accepted(Enclosing { lower: pair.lower, upper: pair.upper }, pair.refusal())
    }

    /// The number's stored line: lowercase hexadecimal, ending in LF; kind byte (00 positive, 01 negative, 02 +0, 03 -0),
    /// precision in two bytes, exponent in four (two's complement), then a regular number's limbs, top first.
    ///
    /// ```
    /// use sheafbuckle::Number;
    ///
    /// assert_eq!(Number::from_double(1.0)?.write_line(), "000035000000018000000000000000\n");
    /// assert_eq!(Number::zero(true, 64)?.write_line(), "03004000000000\n");
    /// # Ok::<(), sheafbuckle::Refusal>(())
    /// ```
    pub fn write_line(&self) -> String {
        // the number is in good form and the room is long enough for any, so nothing is refused
        let mut room = [0; LONGEST_LINE];
        let written = borrowed::write_line(self.head, &self.limbs, &mut room);
        room[..written.count].iter().map(|&byte| char::from(byte)).collect()
    }
}

/// The order of [`Number::compare`].
impl Ord for Number {
    fn cmp(&self, other: &Number) -> Ordering {
        self.compare(other)
    }
}

/// The order of [`Number::compare`].
impl PartialOrd for Number {
    fn partial_cmp(&self, other: &Number) -> Option<Ordering> {
        Some(self.cmp(other))
    }
}

/// Equal values, as [`Number::compare`] has them.
impl PartialEq for Number {
    fn eq(&self, other: &Number) -> bool {
        self.compare(other).is_eq()
    }
}

impl Eq for Number {}

impl Neg for Number {
    type Output = Number;

    fn neg(self) -> Number {
        Number { head: borrowed::turn_sign(self.head), limbs: self.limbs }
    }
}

impl Neg for &Number {
    type Output = Number;

    fn neg(self) -> Number {
        self.negate()
    }
}

/// [`Number::from_double`].
impl TryFrom<f64> for Number {
    type Error = Refusal;

    fn try_from(value: f64) -> Result<Number, Refusal> {
        Number::from_double(value)
    }
}

/// The exact value as a hexadecimal fraction and a power of two, `-0x0.cp1` for -1.5, with as many hexadecimal digits as
/// the precision takes; a zero is `0` or `-0`. `{:+}` shows a plus sign too.
impl fmt::Display for Number {
    fn fmt(&self, f: &mut fmt::Formatter<'_>) -> fmt::Result {
        if self.head.negative {
            f.write_str("-")?;
        } else if f.sign_plus() {
            f.write_str("+")?;
        }
        if self.head.zero {
            return f.write_str("0");
        }
        let digits: String = self.limbs.iter().rev().map(|limb| format!("{limb:016x}")).collect();
        let shown = self.head.precision.div_ceil(4) as usize;
        write!(f, "0x0.{}p{}", &digits[..shown], self.head.exponent)
    }
}

/// Every field, the limbs in hexadecimal, lowest first.
impl fmt::Debug for Number {
    fn fmt(&self, f: &mut fmt::Formatter<'_>) -> fmt::Result {
        f.debug_struct("Number")
            .field("negative", &self.head.negative)
            .field("zero", &self.head.zero)
            .field("precision", &self.head.precision)
            .field("exponent", &self.head.exponent)
            .field("limbs", &format_args!("{:016x?}", self.limbs))
            .finish()
    }
}
