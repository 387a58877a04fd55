//! What a right solution says of its receiver: how late it speaks, and whether an error dies out. Nothing is proved here.
//!
//! Let d = x^K·f, where x does not divide f. What comes in for entry j of N is a polynomial, whose coefficient of x^t is the symbol of
//! tick t. The receiver gives N_j/f times it, which is N_j/d times it, K ticks late: K is delay, and to divide by f takes feedback.

use crate::values::{Certificate, Polynomial};

/// The line on a certificate that is right, to stand before the verdict; nothing on an absence.
pub fn line(certificate: &Certificate) -> String {
    match certificate {
        Certificate::Solution { denominator: d, numerators, .. } => {
            format!("# feedback {} delay {}: {}\n", feedback(d), delay(d), fate_of_error(feedback(d), numerators))
        }
        Certificate::Absence { .. } => String::new(),
    }
}

/// K, the number of factors x of d, which is not zero.
fn delay(d: &Polynomial) -> usize {
    d.iter().take_while(|c| **c == 0).count()
}

/// The degree of f, which is what is left of d, not zero, when its factors x are taken out.
fn feedback(d: &Polynomial) -> usize {
    d.len() - 1 - delay(d)
}

/// What becomes of one wrong symbol.
///
/// Without feedback f is 1, since d is monic. The last output that a symbol for entry j then alters is as many ticks behind it as N_j
/// has degree: after as many ticks as N_j has coefficients the error is gone. With feedback f does not divide all of N, since N/d is in
/// lowest terms. Where it does not divide N_j, the series N_j/f has no last term, and one symbol alters outputs without end.
fn fate_of_error(feedback: usize, numerators: &[Polynomial]) -> String {
    let most = numerators.iter().map(Vec::len).max().unwrap_or(0);
    match (feedback, most) {
        (0, 0) => "an error alters nothing; the receiver gives only 0".to_string(),
        (0, 1) => "an error dies out; it is gone after 1 tick".to_string(),
        (0, _) => format!("an error dies out; it is gone after {most} ticks"),
        _ => "an error can go round without dying out".to_string(),
    }
}
