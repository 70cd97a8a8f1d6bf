//! The kernel, through this crate, against the independent program of `oracle/`: questions and answers are read from
//! files, in the fields that `oracle/README.md` and `oracle/face_cases.py` list.
//!
//! Each case is asked of `borrowed`, and where its numbers are in good form of `Number` too; where they are not, `Number`
//! must refuse them. A difference is told with the case. `make rust-test` makes the files and runs everything here.

use sheafbuckle::borrowed::{self, Head};
use sheafbuckle::{limb_count, Mode, Number, Refusal, Sum};
use std::cmp::Ordering;
use std::fmt::Write;
use std::path::{Path, PathBuf};

// Fields of a question

struct Fields {
    bytes: Vec<u8>,
    at: usize,
}

impl Fields {
    fn new(question: &str) -> Fields {
        let byte = |at| u8::from_str_radix(&question[at..at + 2], 16).expect("hexadecimal");
        Fields { bytes: (0..question.len()).step_by(2).map(byte).collect(), at: 0 }
    }

    fn some(&mut self, count: usize) -> Vec<u8> {
        self.at += count;
        self.bytes[self.at - count..self.at].to_vec()
    }

    fn whole(&mut self, size: usize) -> u64 {
        self.some(size).into_iter().fold(0, |whole, byte| whole << 8 | u64::from(byte))
    }

    fn byte(&mut self) -> u8 {
        self.whole(1) as u8
    }

    fn count(&mut self) -> usize {
        self.whole(2) as usize
    }

    fn limbs(&mut self) -> Vec<u64> {
        (0..self.count()).map(|_| self.whole(8)).collect()
    }

    fn number(&mut self) -> Given {
        let (negative, zero) = (self.whole(1) == 1, self.whole(1) == 1);
        let (precision, exponent) = (self.whole(8), self.whole(4) as u32 as i32);
        Given { head: Head { precision, exponent, negative, zero }, limbs: self.limbs() }
    }

    fn end(&self) {
        assert_eq!(self.at, self.bytes.len(), "a question of another size");
    }
}

/// A number as asked, in good form or not.
struct Given {
    head: Head,
    limbs: Vec<u64>,
}

impl Given {
    fn owned(&self) -> Result<Number, Refusal> {
        Number::new(self.head, self.limbs.clone())
    }
}

/// Limbs as they are lent.
fn lent(count: usize, fill: u8) -> Vec<u64> {
    vec![u64::from_ne_bytes([fill; 8]); count]
}

// Fields of an answer

fn told(head: Head) -> String {
    format!("{:02x}{:02x}{:016x}{:08x}", head.negative as u8, head.zero as u8, head.precision, head.exponent)
}

fn limbs_told(limbs: &[u64]) -> String {
    limbs.iter().fold(String::new(), |mut text, limb| {
        write!(text, "{limb:016x}").unwrap();
        text
    })
}

fn sum_told(sum: borrowed::Sum, target: &[u64]) -> String {
    let (rule, place, number, limbs) = (sum.rule, sum.place, told(sum.number), limbs_told(target));
    format!("{rule:02x}{place:02x}{number}{:02x}{:04x}{:04x}{:04x}{limbs}", sum.ternary, sum.depth, sum.first, sum.second)
}

fn read_told(read: borrowed::Read, target: &[u64]) -> String {
    format!("{:02x}{:02x}{}{}", read.rule, read.place, told(read.number), limbs_told(target))
}

/// What an owning answer says: `ok` after no refusal, or the refusal alone, with which the expected answer begins.
fn owned_told<T>(answer: Result<T, Refusal>, ok: impl Fn(T) -> String) -> String {
    match answer {
        Ok(answer) => format!("0000{}", ok(answer)),
        Err(refusal) => format!("{:02x}{:02x}", refusal.rule.number(), refusal.place.number()),
    }
}

fn owned_sum_told(answer: Result<Sum, Refusal>) -> String {
    owned_told(answer, |sum| {
        let (number, limbs, [first, second]) = (told(sum.number.head()), limbs_told(sum.number.limbs()), sum.used);
        format!("{number}{:02x}{:04x}{first:04x}{second:04x}{limbs}", sum.ternary as i8, sum.depth)
    })
}

fn owned_number_told(answer: Result<Number, Refusal>) -> String {
    owned_told(answer, |number| told(number.head()) + &limbs_told(number.limbs()))
}

// The cases of each file: what `borrowed` answers, and what `Number` does where it can be asked

/// What the owning face says to a case.
enum Owned {
    /// The whole answer, or a refusal alone.
    Answer(String),
    /// The operands are not in good form, by these rules.
    Refused(u8),
    /// It cannot be asked this.
    Unasked,
}

/// The owning answer for operands that may not be in good form.
fn with_operands<const N: usize>(given: [&Given; N], answer: impl Fn([Number; N]) -> String) -> Owned {
    let owned = given.map(Given::owned);
    if let Some(refusal) = owned.iter().filter_map(|number| number.as_ref().err()).min_by_key(|refusal| refusal.rule) {
        return Owned::Refused(refusal.rule.number());
    }
    Owned::Answer(answer(owned.map(Result::unwrap)))
}

const ADD: u8 = 0;
const SUBTRACT: u8 = 1;
const RE_ROUND: u8 = 2;

fn sums(mut ask: Fields) -> (String, Owned) {
    let (operation, mode, precision, count, fill) = (ask.byte(), ask.byte(), ask.whole(8), ask.count(), ask.byte());
    let (x, y) = (ask.number(), ask.number());
    ask.end();
    let mut target = lent(count, fill);
    let sum = match operation {
        ADD => borrowed::add(mode, x.head, &x.limbs, y.head, &y.limbs, precision, &mut target),
        SUBTRACT => borrowed::subtract(mode, x.head, &x.limbs, y.head, &y.limbs, precision, &mut target),
        RE_ROUND => borrowed::re_round(mode, x.head, &x.limbs, precision, &mut target),
        _ => return compared(x, y, target, fill),
    };
    let answer = sum_told(sum, &target);
    let Ok(mode) = Mode::try_from(mode) else { return (answer, Owned::Refused(1)) };
    if count as u64 != limb_count(precision) {
        return (answer, Owned::Unasked);
    }
    let owned = match operation {
        ADD => with_operands([&x, &y], |[x, y]| owned_sum_told(x.add(&y, precision, mode))),
        SUBTRACT => with_operands([&x, &y], |[x, y]| owned_sum_told(x.subtract(&y, precision, mode))),
        _ => with_operands([&x], |[x]| owned_sum_told(x.re_round(precision, mode))),
    };
    (answer, owned)
}

fn compared(x: Given, y: Given, target: Vec<u64>, fill: u8) -> (String, Owned) {
    let order = borrowed::compare(x.head, &x.limbs, y.head, &y.limbs);
    assert_eq!(target, lent(target.len(), fill));
    let owned = with_operands([&x, &y], |[x, y]| {
        assert_eq!((x == y, x < y, x > y), (x.compare(&y).is_eq(), x.compare(&y).is_lt(), x.compare(&y).is_gt()));
        format!("0000{:02x}", x.compare(&y) as i8)
    });
    (format!("{:02x}{:02x}{:02x}", order.rule, order.place, order.order), owned)
}

fn double_case(ternary: Ordering) -> u8 {
    match ternary {
        Ordering::Equal => 0,
        Ordering::Less => 1,
        Ordering::Greater => 2,
    }
}

fn doubles(mut ask: Fields) -> (String, Owned) {
    match ask.byte() {
        0 => {
            let (mode, x) = (ask.byte(), ask.number());
            ask.end();
            let double = borrowed::to_double(mode, x.head, &x.limbs);
            let case = if double.rule == 0 { double_case(double.ternary.cmp(&0)) } else { 3 };
            let answer = format!("{:02x}{:02x}{case:02x}{:016x}", double.rule, double.place, double.value.to_bits());
            let Ok(mode) = Mode::try_from(mode) else { return (answer, Owned::Refused(1)) };
            let owned = |double: sheafbuckle::Double| {
                format!("{:02x}{:016x}", double_case(double.ternary()), double.value().to_bits())
            };
            (answer, with_operands([&x], |[x]| owned_told(x.to_double(mode), owned)))
        }
        1 => {
            let (_, x) = (ask.byte(), ask.number());
            ask.end();
            let pair = borrowed::enclose(x.head, &x.limbs);
            let ends = |lower: f64, upper: f64| format!("{:016x}{:016x}", lower.to_bits(), upper.to_bits());
            let answer = format!("{:02x}{:02x}{}", pair.rule, pair.place, ends(pair.lower, pair.upper));
            (answer, with_operands([&x], |[x]| owned_told(x.enclose(), |pair| ends(pair.lower, pair.upper))))
        }
        _ => {
            let (value, count, fill) = (f64::from_bits(ask.whole(8)), ask.count(), ask.byte());
            ask.end();
            let mut target = lent(count, fill);
            let read = borrowed::from_double(value, &mut target);
            let owned = owned_number_told(Number::from_double(value));
            (read_told(read, &target), if count == 1 { Owned::Answer(owned) } else { Owned::Unasked })
        }
    }
}

fn lines(mut ask: Fields) -> (String, Owned) {
    if ask.byte() == 0 {
        let (count, fill, x) = (ask.count(), ask.byte(), ask.number());
        ask.end();
        let mut room = vec![fill; count];
        let written = borrowed::write_line(x.head, &x.limbs, &mut room);
        let mut answer = format!("{:02x}{:02x}{:04x}", written.rule, written.place, written.count);
        room.iter().for_each(|byte| write!(answer, "{byte:02x}").unwrap());
        let short = (written.rule, written.place) == (3, 3);
        let owned = with_operands([&x], |[x]| {
            let line = x.write_line();
            let past = std::iter::repeat_n(fill, count.saturating_sub(line.len()));
            let start = format!("0000{:04x}", line.len());
            line.bytes().chain(past).fold(start, |text, byte| text + &format!("{byte:02x}"))
        });
        return (answer, if short { Owned::Unasked } else { owned });
    }
    let (count, fill, length) = (ask.count(), ask.byte(), ask.count());
    let line = ask.some(length);
    ask.end();
    let mut target = lent(count, fill);
    let read = borrowed::read_line(&line, &mut target);
    let owned = owned_number_told(Number::read_line(&line));
    let lengthy = (read.rule, read.place) == (3, 3);
    (read_told(read, &target), if lengthy { Owned::Unasked } else { Owned::Answer(owned) })
}

/// The questions of `tests_parts`: the first byte names the part that is asked.
fn by_part(mut ask: Fields) -> (String, Owned) {
    match ask.byte() {
        0 => sums(ask),
        1 => doubles(ask),
        2 => lines(ask),
        part => panic!("no part {part}"),
    }
}

fn parts(mut ask: Fields) -> (String, Owned) {
    match ask.byte() {
        0 => {
            let x = ask.number();
            ask.end();
            let owned = x.owned().map_or(Owned::Unasked, |x| Owned::Answer(told((-&x).head())));
            (told(borrowed::turn_sign(x.head)), owned)
        }
        1 => {
            let limbs = ask.limbs();
            ask.end();
            let run = borrowed::trim(&limbs);
            let part = sheafbuckle::trim(&limbs);
            assert!(std::ptr::eq(part, &limbs[run.start..]), "the caller's own limbs");
            let owned = format!("{:04x}{:04x}", limbs.len() - part.len(), part.len());
            (format!("{:04x}{:04x}", run.start, run.count), Owned::Answer(owned))
        }
        _ => {
            let length = ask.count();
            let line = ask.some(length);
            ask.end();
            (read_told(borrowed::read_head(&line), &[]), Owned::Unasked)
        }
    }
}

// The comparison

#[derive(Default)]
struct Report {
    cases: usize,
    owned: usize,
    refused: usize,
    differences: Vec<String>,
}

type Answers = fn(Fields) -> (String, Owned);

/// Each question with its expected answer and its place among the lines. A line that begins with `#` asks nothing: it
/// tells the next one in words.
fn cases<'a>(questions: &'a str, expected: &'a str) -> impl Iterator<Item = (usize, (&'a str, &'a str))> {
    questions.lines().zip(expected.lines()).enumerate().filter(|(_, (question, _))| !question.starts_with('#'))
}

/// Asks every question and compares with the expected answers, line by line.
fn compare(name: &str, questions: &str, expected: &str, answers: Answers) -> Report {
    assert_eq!(questions.lines().count(), expected.lines().count(), "{name}: questions and answers");
    let mut report = Report::default();
    for (index, (question, expected)) in cases(questions, expected) {
        report.cases += 1;
        let mut differs = |face: &str, answer: &str| {
            let line = index + 1;
            report.differences.push(format!(
                "{name}, line {line}, {face}\n  asked    {question}\n  expected {expected}\n  answered {answer}"
            ));
        };
        let (answer, owned) = answers(Fields::new(question));
        if answer != expected {
            differs("borrowed", &answer);
        }
        match owned {
            Owned::Answer(answer) => {
                report.owned += 1;
                let alone = answer.len() == 4;
                if answer != if alone { &expected[..4] } else { expected } {
                    differs("Number", &answer);
                }
            }
            // the operands' faults are named first, save a target's of the same rule or an earlier one
            Owned::Refused(rule) => {
                report.refused += 1;
                let first = u8::from_str_radix(&expected[..2], 16).unwrap();
                if first == 0 || first > rule {
                    differs("Number", &format!("refused by rule {rule}"));
                }
            }
            Owned::Unasked => (),
        }
    }
    report
}

fn compare_files(name: &str, questions: &Path, expected: &Path, answers: Answers) -> Report {
    let text = |path: &Path| {
        std::fs::read_to_string(path).unwrap_or_else(|error| panic!("{}: {error} (make rust-test makes it)", path.display()))
    };
    compare(name, &text(questions), &text(expected), answers)
}

/// Prints the counts, and fails with the first differences if there are any.
fn conclude(reports: Vec<(&str, Report)>) {
    let mut total = Report::default();
    for (name, report) in reports {
        println!(
            "{name}: {} cases, {} of them asked of Number too, {} refused by it; {} differences",
            report.cases,
            report.owned,
            report.refused,
            report.differences.len()
        );
        total.cases += report.cases;
        total.owned += report.owned;
        total.refused += report.refused;
        total.differences.extend(report.differences);
    }
    let shown: Vec<_> = total.differences.iter().take(10).map(String::as_str).collect();
    assert!(total.differences.is_empty(), "{} differences:\n{}", total.differences.len(), shown.join("\n"));
    println!("{} cases, {} of them asked of Number too, no difference", total.cases, total.owned);
}

fn repository() -> PathBuf {
    Path::new(env!("CARGO_MANIFEST_DIR")).join("..")
}

/// The cases that stand beside the kernel's own test programs.
#[test]
fn stored_cases() {
    let stored = |program: &'static str, answers: Answers| {
        let folder = repository().join("crates").join(program);
        (program, compare_files(program, &folder.join("stdin"), &folder.join("stdout"), answers))
    };
    conclude(vec![stored("tests_sums", sums), stored("tests_parts", by_part)]);
}

/// The cases of `oracle/face_cases.py`, in the folder that SHEAFBUCKLE_CASES names, else in `target/face`.
#[test]
#[ignore = "needs the cases of oracle/face_cases.py: make rust-test"]
fn many_cases() {
    let folder = std::env::var_os("SHEAFBUCKLE_CASES").map_or(repository().join("target/face"), PathBuf::from);
    let made = |name: &'static str, answers: Answers| {
        let file = |end: &str| folder.join(format!("{name}.{end}"));
        (name, compare_files(name, &file("in"), &file("out"), answers))
    };
    conclude(vec![
        made("sums", sums),
        made("compare", sums),
        made("doubles", doubles),
        made("lines", lines),
        made("parts", parts),
    ]);
}

/// A wrong expectation is reported, with its case, and nothing else is: one digit changed, at every place of some answers.
#[test]
fn a_wrong_expectation_is_reported() {
    let folder = repository().join("crates/tests_sums");
    let text = |end: &str| std::fs::read_to_string(folder.join(end)).unwrap();
    let (questions, answers) = (text("stdin"), text("stdout"));
    for (_, (question, answer)) in cases(&questions, &answers).step_by(500) {
        for at in 0..answer.len() {
            let other = if &answer[at..at + 1] == "0" { "1" } else { "0" };
            let wrong = format!("{answer}\n{}{other}{}\n{answer}\n", &answer[..at], &answer[at + 1..]);
            let report = compare("altered", &format!("{question}\n{question}\n{question}\n"), &wrong, sums);
            let borrowed: Vec<_> = report.differences.iter().filter(|told| told.contains("borrowed")).collect();
            assert_eq!(borrowed.len(), 1, "digit {at} of {answer}");
            assert!(borrowed[0].starts_with("altered, line 2") && borrowed[0].contains(question));
            assert!(report.differences.iter().all(|told| told.starts_with("altered, line 2")));
        }
    }
}
