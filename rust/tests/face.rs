//! What a Rust user sees: how numbers print, sort and are taken apart, and that every rule is told.

use sheafbuckle::borrowed::Head;
use sheafbuckle::{Double, Enclosing, Mode, Number, Place, Refusal, Rule, LEAST_EXPONENT, MOST_EXPONENT};
use std::cmp::Ordering;
use std::error::Error;

const TOP: u64 = 1 << 63;

fn double(value: f64) -> Number {
    Number::try_from(value).unwrap()
}

fn refused<T>(answer: Result<T, Refusal>) -> (u8, u8) {
    answer.err().map_or((0, 0), |refusal| (refusal.rule.number(), refusal.place.number()))
}

#[test]
fn numbers_print() {
    assert_eq!(double(-1.5).to_string(), "-0x0.c0000000000000p1");
    assert_eq!(format!("{:+}", Number::regular(false, 2, -7, vec![TOP]).unwrap()), "+0x0.8p-7");
    assert_eq!(format!("{} {} {:+}", double(0.0), double(-0.0), double(0.0)), "0 -0 +0");
    let x = Number::regular(true, 65, 3, vec![TOP, TOP]).unwrap();
    assert_eq!(x.to_string(), "-0x0.80000000000000008p3");
    assert_eq!(
        format!("{x:?}"),
        "Number { negative: true, zero: false, precision: 65, exponent: 3, limbs: [8000000000000000, 8000000000000000] }"
    );
}

#[test]
fn numbers_are_ordered_by_value() {
    let mut numbers: Vec<_> = [3.0, -0.0, -2.5, 0.25, 1e300, -1e-300].map(double).into();
    numbers.sort();
    let sorted: Vec<_> = numbers.iter().map(|number| number.to_double(Mode::Nearest).unwrap().value()).collect();
    assert_eq!(sorted, [-2.5, -1e-300, 0.0, 0.25, 3.0, 1e300]);
    assert_eq!(numbers.iter().max().unwrap().compare(&double(1e300)), Ordering::Equal);
    let longer = double(3.0).re_round(4096, Mode::Down).unwrap().number;
    assert!(longer == double(3.0) && !longer.identical(&double(3.0)));
}

#[test]
fn numbers_are_taken_apart_and_made_again() {
    let x = double(0.1);
    let (head, limbs) = x.clone().into_parts();
    assert_eq!(head, Head { precision: 53, exponent: -3, negative: false, zero: false });
    assert!(Number::new(head, limbs).unwrap().identical(&x));
    assert!(Number::read_line(x.write_line()).unwrap().identical(&x));
    assert!((-(-&x)).identical(&x) && x.negate().identical(&-x.clone()) && (-&x) < x);

    let rubbish = Number::new(Head { zero: true, exponent: 0, ..head }, vec![77]).unwrap();
    assert!(rubbish.is_zero() && rubbish.limbs() == [0]);
}

#[test]
fn doubles_are_told_with_their_side() {
    let third = Number::regular(false, 128, -1, vec![0xaaaaaaaaaaaaaaaa; 2]).unwrap();
    assert_eq!(third.to_double(Mode::Nearest), Ok(Double::Below(1.0 / 3.0)));
    assert_eq!(third.negate().to_double(Mode::Nearest), Ok(Double::Above(-1.0 / 3.0)));
    assert_eq!(double(0.5).to_double(Mode::Up), Ok(Double::Exact(0.5)));
    assert_eq!(double(0.5).enclose(), Ok(Enclosing { lower: 0.5, upper: 0.5 }));
    assert!(double(-0.0).enclose().unwrap().lower.is_sign_negative());
}

#[test]
fn every_rule_is_told() {
    let one = double(1.0);
    let (most, least) = (
        |limb| Number::regular(false, 2, MOST_EXPONENT, vec![limb]),
        |limb| Number::regular(false, 2, LEAST_EXPONENT, vec![limb]),
    );
    let (large, small) = (most(TOP).unwrap(), least(TOP).unwrap());
    let difference = least(TOP | TOP >> 1).unwrap().subtract(&small, 2, Mode::Up);
    assert_eq!(refused(Mode::try_from(4)), (1, 0));
    assert_eq!(refused(one.add(&one, 1, Mode::Up)), (2, 3));
    assert_eq!(refused(one.subtract(&one, u64::MAX, Mode::Up)), (2, 3));
    assert_eq!(refused(Number::zero(false, u64::MAX)), (2, 1));
    assert_eq!(refused(Number::regular(false, 64, 0, vec![TOP; 2])), (3, 1));
    assert_eq!(refused(Number::regular(false, 64, MOST_EXPONENT + 1, vec![TOP])), (4, 1));
    assert_eq!(refused(Number::regular(false, 63, 0, vec![TOP + 1])), (5, 1));
    assert_eq!(refused(large.add(&large, 2, Mode::Down)), (6, 3));
    assert_eq!(refused(difference), (7, 3));
    assert_eq!(refused(Number::read_line("")), (8, 1));
    assert_eq!(refused(Number::read_line(one.write_line().replace('\n', "\r"))), (9, 1));
    assert_eq!(refused(Number::read_line("04004000000000\n")), (10, 1));
    assert_eq!(refused(large.to_double(Mode::TowardZero)), (12, 0));
    assert_eq!(refused(small.enclose()), (13, 0));
    assert_eq!(refused(Number::from_double(f64::NEG_INFINITY)), (14, 1));
}

#[test]
fn refusals_are_errors() {
    let refusal: Box<dyn Error + Send + Sync> = double(1.0).re_round(1, Mode::Up).unwrap_err().into();
    assert_eq!(refusal.to_string(), "refused by rule 2 at place 3: a precision out of range (target)");
    assert_eq!(Refusal::of(0, 0), None);
    assert_eq!(Refusal::of(12, 0), Some(Refusal { rule: Rule::BeyondDoubles, place: Place::Call }));
    assert_eq!((Rule::of(11), Place::of(4)), (None, None));
}
