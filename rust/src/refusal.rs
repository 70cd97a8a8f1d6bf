use std::error::Error;
use std::fmt;

/// Why a call was refused, and where the fault stands.
///
/// ```
/// use sheafbuckle::{Number, Place, Rule};
///
/// let refusal = Number::zero(false, 5000).unwrap_err();
/// assert_eq!((refusal.rule, refusal.place), (Rule::Precision, Place::First));
/// assert_eq!(refusal.to_string(), "refused by rule 2 at place 1: a precision out of range (first or only operand)");
/// ```
#[derive(Clone, Copy, Debug, PartialEq, Eq, Hash)]
pub struct Refusal {
    /// The rule that was broken first, in the order of checking.
    pub rule: Rule,
    /// Where.
    pub place: Place,
}

impl Refusal {
    /// The refusal of a rule's number and a place's number, as the kernel gives them; `None` for 0 and 0, which is no
    /// refusal.
    ///
    /// # Panics
    ///
    /// On a number that is no rule's or no place's. The kernel gives none.
    pub fn of(rule: u8, place: u8) -> Option<Refusal> {
        if rule == 0 {
            return None;
        }
        match (Rule::of(rule), Place::of(place)) {
            (Some(rule), Some(place)) => Some(Refusal { rule, place }),
            _ => panic!("rule {rule} and place {place}: the archive is not of this crate's version"),
        }
    }
}

impl fmt::Display for Refusal {
    fn fmt(&self, f: &mut fmt::Formatter<'_>) -> fmt::Result {
        let (rule, place) = (self.rule, self.place);
        write!(f, "refused by rule {} at place {}: {} ({})", rule.number(), place.number(), rule, place)
    }
}

impl Error for Refusal {}

/// The rules, in the order of checking; the number is the kernel's.
#[derive(Clone, Copy, Debug, PartialEq, Eq, PartialOrd, Ord, Hash)]
#[non_exhaustive]
#[repr(u8)]
pub enum Rule {
    /// Mode above 3.
    Mode = 1,
    /// A precision out of range, which is 2 to 4096.
    Precision = 2,
    /// A slice of another number of limbs than ceil(precision / 64), or a line's room that is too short.
    Length = 3,
    /// A regular number's exponent out of range, or a zero's exponent not 0.
    Exponent = 4,
    /// A regular number with top bit 0 or a spare bit 1.
    Form = 5,
    /// The selected exponent is above the range.
    TooLarge = 6,
    /// The selected exponent is below the range.
    TooSmall = 7,
    /// A line of wrong size.
    Size = 8,
    /// A line's byte that is not 0-9 or a-f, or a last byte that is not LF.
    Byte = 9,
    /// A line's kind byte above 3.
    Kind = 10,
    /// The selected double is beyond the largest finite one.
    BeyondDoubles = 12,
    /// The selected double is not zero and below 2^-1022 in size.
    BelowDoubles = 13,
    /// A double that is infinite or NaN.
    NoNumber = 14,
}

impl Rule {
    const ALL: [Rule; 13] = [
        Rule::Mode,
        Rule::Precision,
        Rule::Length,
        Rule::Exponent,
        Rule::Form,
        Rule::TooLarge,
        Rule::TooSmall,
        Rule::Size,
        Rule::Byte,
        Rule::Kind,
        Rule::BeyondDoubles,
        Rule::BelowDoubles,
        Rule::NoNumber,
    ];

    /// The rule of a number, if there is one.
    pub fn of(number: u8) -> Option<Rule> {
        Rule::ALL.into_iter().find(|rule| rule.number() == number)
    }

    /// The rule's number.
    pub const fn number(self) -> u8 {
        self as u8
    }
}

impl fmt::Display for Rule {
    fn fmt(&self, f: &mut fmt::Formatter<'_>) -> fmt::Result {
        f.write_str(match self {
            Rule::Mode => "mode above 3",
            Rule::Precision => "a precision out of range",
            Rule::Length => "a limb slice of wrong length, or a line's room too short",
            Rule::Exponent => "a regular exponent out of range, or a zero's exponent not 0",
            Rule::Form => "a regular number with top bit 0 or a spare bit 1",
            Rule::TooLarge => "selected exponent too large",
            Rule::TooSmall => "selected exponent too small",
            Rule::Size => "a line of wrong size",
            Rule::Byte => "a line's byte not 0-9 or a-f, or its last byte not LF",
            Rule::Kind => "a kind byte above 3",
            Rule::BeyondDoubles => "selected double beyond the largest finite one",
            Rule::BelowDoubles => "selected non-zero double below 2^-1022 in size",
            Rule::NoNumber => "a double that is infinite or NaN",
        })
    }
}

/// Where a fault stands; the number is the kernel's.
#[derive(Clone, Copy, Debug, PartialEq, Eq, PartialOrd, Ord, Hash)]
#[repr(u8)]
pub enum Place {
    /// The mode, or the call as a whole where no double answers it.
    Call = 0,
    /// The first or only operand, the line or the double.
    First = 1,
    /// The second operand.
    Second = 2,
    /// The target, or a line's room.
    Target = 3,
}

impl Place {
    const ALL: [Place; 4] = [Place::Call, Place::First, Place::Second, Place::Target];

    /// The place of a number, if there is one.
    pub fn of(number: u8) -> Option<Place> {
        Place::ALL.get(usize::from(number)).copied()
    }

    /// The place's number.
    pub const fn number(self) -> u8 {
        self as u8
    }
}

impl fmt::Display for Place {
    fn fmt(&self, f: &mut fmt::Formatter<'_>) -> fmt::Result {
        f.write_str(match self {
            Place::Call => "the call",
            Place::First => "first or only operand",
            Place::Second => "second operand",
            Place::Target => "target",
        })
    }
}
