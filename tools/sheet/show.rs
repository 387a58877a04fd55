//! Systems and certificates as text. That of a system reads back as the same system.

use crate::values::{Certificate, Polynomial, System};

/// How numbers modulo p are shown: as 0 to p - 1 or, signed, as those nearest to 0.
#[derive(Clone, Copy)]
pub struct Notation {
    pub modulus: u32,
    pub signed: bool,
}

impl Notation {
    pub fn system(self, system: &System) -> String {
        let rows = self.matrix_lines(&system.matrix);
        let several = system.sides.len() > 1;
        let name = |number: usize| if several { format!("b  # right side {number}") } else { "b".to_string() };
        let sides: String = system.sides.iter().enumerate().map(|(number, b)| self.vector(&name(number), b)).collect();
        format!("p {}\n{}{sides}", self.modulus, part("A", &rows))
    }

    /// The number is that of the right side that the certificate is held to, where there are several: it does not say which it is for.
    pub fn certificate(self, certificate: &Certificate, number: Option<usize>) -> String {
        let of = number.map(|number| format!("held to right side {number}; ")).unwrap_or_default();
        match certificate {
            Certificate::Solution { denominator, numerators, certifying_denominator, certifying_numerators } => format!(
                "card solution  # {of}claims y = N/d, with z = Z/w against a smaller d\np {}\n{}{}{}{}",
                self.modulus,
                part("d", &[self.polynomial(denominator)]),
                self.vector("N", numerators),
                part("w", &[self.polynomial(certifying_denominator)]),
                self.vector("Z", certifying_numerators)
            ),
            Certificate::Absence { kernel } => {
                format!("card absence  # {of}claims q*A = 0, with q*b not 0\np {}\n{}", self.modulus, self.vector("q", kernel))
            }
        }
    }

    /// One entry a line.
    fn vector(self, name: &str, entries: &[Polynomial]) -> String {
        part(name, &entries.iter().map(|entry| self.polynomial(entry)).collect::<Vec<_>>())
    }

    /// One row a line, with the entries of a column one below the other.
    fn matrix_lines(self, matrix: &[Vec<Polynomial>]) -> Vec<String> {
        let shown: Vec<Vec<String>> = matrix.iter().map(|row| row.iter().map(|entry| self.polynomial(entry)).collect()).collect();
        let width = |column: usize| shown.iter().map(|row| row[column].len()).max().unwrap_or(0);
        let widths: Vec<usize> = (0..shown[0].len()).map(width).collect();
        shown.iter().map(|row| row_line(row, &widths)).collect()
    }

    /// Highest power first, as in x^2 + 2*x + 1 or, signed, x^2 - x + 1.
    pub fn polynomial(self, polynomial: &Polynomial) -> String {
        let mut shown = String::new();
        for (exponent, c) in polynomial.iter().enumerate().rev().filter(|(_, c)| **c != 0) {
            let (negative, size) = self.parts(*c);
            shown += match (shown.is_empty(), negative) {
                (true, true) => "-",
                (true, false) => "",
                (false, true) => " - ",
                (false, false) => " + ",
            };
            shown += &term(size, exponent);
        }
        if shown.is_empty() {
            shown.push('0');
        }
        shown
    }

    /// One number.
    pub fn number(self, c: u32) -> String {
        let (negative, size) = self.parts(c);
        format!("{}{size}", if negative { "-" } else { "" })
    }

    /// Whether a number is shown with a minus, and its size.
    fn parts(self, c: u32) -> (bool, u32) {
        if self.signed && c > self.modulus / 2 {
            (true, self.modulus - c)
        } else {
            (false, c)
        }
    }
}

/// A name, and the lines below it.
fn part(name: &str, lines: &[String]) -> String {
    let indented: String = lines.iter().map(|line| format!("  {line}\n")).collect();
    format!("{name}\n{indented}")
}

fn row_line(row: &[String], widths: &[usize]) -> String {
    let last = row.len() - 1;
    let padded = row[..last].iter().zip(widths).map(|(entry, width)| format!("{:<1$}", format!("{entry},"), width + 2));
    padded.collect::<String>() + &row[last]
}

fn term(coefficient: u32, exponent: usize) -> String {
    let power = match exponent {
        0 => return coefficient.to_string(),
        1 => "x".to_string(),
        _ => format!("x^{exponent}"),
    };
    if coefficient == 1 {
        power
    } else {
        format!("{coefficient}*{power}")
    }
}
