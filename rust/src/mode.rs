use crate::refusal::{Place, Refusal, Rule};

/// How a value between two numbers of the target's precision is rounded.
#[derive(Clone, Copy, Debug, PartialEq, Eq, Hash)]
#[repr(u8)]
pub enum Mode {
    /// The closest; on a tie, the one whose last digit is 0.
    Nearest = 0,
    /// The one nearer zero.
    TowardZero = 1,
    /// The smallest not below: toward plus infinity.
    Up = 2,
    /// The largest not above: toward minus infinity.
    Down = 3,
}

impl Mode {
    /// The four modes, in the order of their numbers.
    pub const ALL: [Mode; 4] = [Mode::Nearest, Mode::TowardZero, Mode::Up, Mode::Down];

    /// The mode's number, 0 to 3, which [`borrowed`](crate::borrowed) takes.
    pub const fn number(self) -> u8 {
        self as u8
    }
}

/// The mode of a number; one above 3 is refused, as the kernel refuses it.
impl TryFrom<u8> for Mode {
    type Error = Refusal;

    fn try_from(number: u8) -> Result<Mode, Refusal> {
        let refusal = Refusal { rule: Rule::Mode, place: Place::Call };
        Mode::ALL.get(usize::from(number)).copied().ok_or(refusal)
    }
}
