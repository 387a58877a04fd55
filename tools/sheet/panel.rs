//! What the panel's check refuses though it reads (docs/FORMAT.md, "Bounds"). Nothing is proved here.

use crate::values::{Certificate, Polynomial, System};

const ROWS: usize = 4;
const COLUMNS: usize = 4;
const SIDES: usize = 1;
const SYSTEM_SIZE: usize = 8;
const CERTIFICATE_SIZE: usize = 29;

/// The line on a system that exceeds a limit, which is tried first, or on a certificate beside it that does; nothing where all are kept.
pub fn line(system: &System, certificate: Option<&Certificate>) -> String {
    let sheet = beyond(&[
        (system.matrix.len(), "rows", ROWS),
        (system.columns(), "columns", COLUMNS),
        (system.sides.len(), "right sides", SIDES),
        (longest(system.matrix.iter().chain(&system.sides).flatten()), "coefficients in a polynomial", SYSTEM_SIZE),
    ]);
    let card = certificate.map(|card| beyond(&[(size(card), "coefficients in a polynomial", CERTIFICATE_SIZE)]));
    match (sheet, card.flatten()) {
        (Some(found), _) => format!("# panel: refuses the sheet (41 at 0): {found}\n"),
        (None, Some(found)) => format!("# panel: refuses the card (41 at 1): {found}\n"),
        (None, None) => String::new(),
    }
}

/// Those of these numbers that exceed their limits, each with its name; nothing where none does.
fn beyond(numbers: &[(usize, &str, usize)]) -> Option<String> {
    let exceeding = numbers.iter().filter(|(number, _, most)| number > most);
    let found: Vec<String> = exceeding.map(|(number, name, most)| format!("{number} {name} (at most {most})")).collect();
    (!found.is_empty()).then(|| found.join(", "))
}

/// The most coefficients of a polynomial of the certificate.
fn size(certificate: &Certificate) -> usize {
    match certificate {
        Certificate::Solution { denominator: d, numerators, certifying_denominator: w, certifying_numerators } => {
            longest([d, w].into_iter().chain(numerators).chain(certifying_numerators))
        }
        Certificate::Absence { kernel } => longest(kernel.iter()),
    }
}

fn longest<'a>(polynomials: impl Iterator<Item = &'a Polynomial>) -> usize {
    polynomials.map(Vec::len).max().unwrap_or(0)
}
