// Adds two numbers of different precision, shows the ternary value and the depth, and hands out the doubles that enclose the sum.
use sheafbuckle::{Mode, Number, Refusal, Sum, MOST_EXPONENT};

fn show(what: &str, sum: &Sum) {
    let [first, second] = sum.used;
    println!("{what}: {:+}", sum.number);
    println!("    ternary value {:?}, depth {}, limbs used {first} and {second}", sum.ternary, sum.depth);
}

fn main() -> Result<(), Refusal> {
    // 1/3 to 128 digits, from below, and 2^-70 to 2 digits
    let third = Number::regular(false, 128, -1, vec![0xaaaaaaaaaaaaaaaa; 2])?;
    let tiny = Number::regular(false, 2, -69, vec![1 << 63])?;

    // exact to 128 digits: every column is read
    let whole = third.add(&tiny, 128, Mode::Nearest)?;
    show("1/3 + 2^-70 to 128 digits, nearest", &whole);

    // to 53 digits the first column fixes the answer, whatever stands below it
    show("1/3 + 2^-70 to 53 digits, down", &third.add(&tiny, 53, Mode::Down)?);

    // the doubles that enclose the exact sum
    let pair = whole.number.enclose()?;
    println!("the sum lies from {} to {}", pair.lower, pair.upper);

    // what cancels is an exact zero, in every mode +0
    show("1/3 - 1/3", &third.subtract(&third, 53, Mode::Down)?);

    // the largest power of two, twice: no number of this range
    let most = Number::regular(false, 2, MOST_EXPONENT, vec![1 << 63])?;
    match most.add(&most, 2, Mode::Nearest) {
        Ok(sum) => show("2^(2^30-2) twice", &sum),
        Err(refusal) => println!("2^(2^30-2) twice: {refusal}"),
    }
    Ok(())
}
