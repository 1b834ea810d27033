//! `fenikezo forecast`: both modes side by side, without building.

use crate::arguments::Forecast;
use crate::failure::{self, Failure};
use crate::files;
use crate::input::Input;
use crate::json::{object, Json};
use crate::numbers;
use crate::words::MODES;
use ivs::{Done, Refused};
use std::fmt::Write;

pub type Told = Result<Done, Refused>;

pub fn run(arguments: &Forecast) -> Result<(), Failure> {
    let input = Input::read(&arguments.job, arguments.axes)?;
    let told = both(&input);
    if let [Err(dedup), Err(implicit)] = &told {
        return Err(refused(&input, *dedup, *implicit));
    }
    input.warn();
    let why = |refused: &Refused| input.words(refused);
    files::print(&if arguments.json {
        format!("{}\n", json(&told, why))
    } else {
        table(&told, why)
    })
}

/// What each mode says.
pub fn both(input: &Input) -> [Told; 2] {
    [0, 1].map(|mode| ivs::forecast(input.axes, mode, &input.job))
}

/// Of a job that both modes refuse, for the same reason or not.
pub fn refused(input: &Input, dedup: Refused, implicit: Refused) -> Failure {
    if dedup == implicit {
        return input.refused(dedup);
    }
    let both = [dedup, implicit].map(|refused| (refused, input.words(&refused)));
    Failure::Both(input.file.display().to_string(), Box::new(both))
}

/// A column a mode, dashes where it is refused; then why it is, or which is smaller.
fn table(told: &[Told; 2], why: impl Fn(&Refused) -> String) -> String {
    let mut text = format!("{:13} {:>10} {:>10}\n", "", MODES[0], MODES[1]);
    let column = |told: &Told| told.as_ref().ok().map(numbers::of);
    let numbers = [column(&told[0]), column(&told[1])];
    // The last is the forecast itself, which is the first.
    let rows = numbers::of(&Done::default()).len() - 1;
    for row in 0..rows {
        let name = numbers
            .iter()
            .flatten()
            .map(|numbers| numbers[row].0)
            .next();
        // Writing to a string cannot fail.
        let _ = write!(text, "{:13}", name.unwrap_or_default());
        for numbers in &numbers {
            let number = numbers.map_or("-".to_string(), |numbers| numbers[row].2.to_string());
            let _ = write!(text, " {number:>10}");
        }
        text.push('\n');
    }
    let _ = match told {
        [Ok(dedup), Ok(implicit)] => {
            let bytes = dedup.store_bytes.abs_diff(implicit.store_bytes);
            match smaller(told) {
                Some(mode) => writeln!(text, "{mode} is smaller, by {bytes} bytes"),
                None => writeln!(text, "both take as many bytes"),
            }
        }
        [Err(refused), _] => writeln!(text, "dedup is refused: {}", why(refused)),
        [_, Err(refused)] => writeln!(text, "implicit is refused: {}", why(refused)),
    };
    text
}

/// Each mode's numbers or its refusal, and which is smaller.
pub fn json(told: &[Told; 2], why: impl Fn(&Refused) -> String) -> Json {
    let mode = |told: &Told| match told {
        Ok(done) => numbers::json(&numbers::of(done)),
        Err(refused) => failure::number(refused, &why(refused)),
    };
    object([
        ("dedup", mode(&told[0])),
        ("implicit", mode(&told[1])),
        ("smaller", smaller(told).into()),
    ])
}

/// The mode whose store takes fewer bytes, or that alone has one; none where both take as
/// many.
fn smaller(told: &[Told; 2]) -> Option<&'static str> {
    let bytes = |told: &Told| told.as_ref().map_or(u64::MAX, |done| done.store_bytes);
    match bytes(&told[0]).cmp(&bytes(&told[1])) {
        std::cmp::Ordering::Less => Some(MODES[0]),
        std::cmp::Ordering::Equal => None,
        std::cmp::Ordering::Greater => Some(MODES[1]),
    }
}
