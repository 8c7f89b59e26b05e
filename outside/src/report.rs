//! Tells how a comparison went.

use crate::compare::Difference;
use crate::generate::Sample;
use crate::program::Outcome;

const SHOWN_DIFFERENCES: usize = 5;
const SHOWN_BYTES: usize = 100;

/// How many sheets each family has, and how many of them differ.
pub fn table(samples: &[Sample], differences: &[Difference]) -> String {
    let head = format!("{:<26}{:>7}{:>8}\n", "family", "sheets", "differ");
    let rows = families(samples).into_iter().map(|family| {
        let sheets = samples.iter().filter(|sample| sample.family == family).count();
        let differ = differences.iter().filter(|found| found.sample.family == family).count();
        format!("{family:<26}{sheets:>7}{differ:>8}\n")
    });
    std::iter::once(head).chain(rows).collect()
}

fn families(samples: &[Sample]) -> Vec<&'static str> {
    let mut families: Vec<_> = samples.iter().map(|sample| sample.family).collect();
    families.dedup();
    families
}

/// The first few differences, each with the bytes of its sheet.
pub fn first_differences(differences: &[Difference]) -> String {
    differences.iter().take(SHOWN_DIFFERENCES).map(describe).collect()
}

fn describe(difference: &Difference) -> String {
    let Difference { index, sample, expected, outcome } = difference;
    let family = sample.family;
    let sheet = bytes(&sample.sheet);
    let what = what_differs(expected, outcome);
    format!("sheet {index} ({family}): {sheet}\n{what}\n")
}

fn what_differs(expected: &str, outcome: &Outcome) -> String {
    match outcome {
        Outcome::TookTooLong => "  the program did not end in time\n".to_string(),
        Outcome::Ended { output, status } => {
            let mut text = match status {
                Some(0) => String::new(),
                Some(status) => format!("  the program ended with status {status}\n"),
                None => "  the program was ended by a signal\n".to_string(),
            };
            text += &first_different_line(expected, &String::from_utf8_lossy(output));
            text
        }
    }
}

/// Lines keep their newlines here, so that a missing one is a difference too.
fn first_different_line(expected: &str, printed: &str) -> String {
    let mut expected = expected.split_inclusive('\n');
    let mut printed = printed.split_inclusive('\n');
    for line in 1.. {
        match (expected.next(), printed.next()) {
            (None, None) => break,
            (wanted, got) if wanted == got => {}
            (wanted, got) => {
                let (wanted, got) = (quoted(wanted), quoted(got));
                return format!(
                    "  line {line} should be {wanted}\n  line {line} is        {got}\n"
                );
            }
        }
    }
    String::new()
}

fn quoted(line: Option<&str>) -> String {
    line.map_or("missing".to_string(), |line| format!("{line:?}"))
}

/// The bytes of a sheet; only the beginning of a long one.
pub fn bytes(sheet: &[u8]) -> String {
    let shown: Vec<_> = sheet.iter().take(SHOWN_BYTES).map(u8::to_string).collect();
    let more = if sheet.len() > SHOWN_BYTES { " .." } else { "" };
    format!("length {}, bytes {}{more}", sheet.len(), shown.join(" "))
}
