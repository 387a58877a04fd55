//! Whether a certificate is right for its system: 31 to 36 of the table of refusals, in its order, and what differs where. Nothing is
//! proved here: the proved verdict is that of `cardcheck`.

use crate::modular::{divide, gcd, is_monic, monic, multiply, sum_of_products};
use crate::show::Notation;
use crate::values::{Certificate, Polynomial, System};

/// The first condition that does not hold: its number and place, and lines on what is there.
pub struct Fault {
    pub number: u32,
    pub place: usize,
    pub lines: Vec<String>,
}

/// The fault of a certificate that was read for this system, as one for the right side of this number; nothing where it is right.
pub fn first_fault(certificate: &Certificate, system: &System, side: usize, notation: Notation) -> Option<Fault> {
    let trial = Trial { system, side, notation };
    match certificate {
        Certificate::Solution { denominator: d, numerators, certifying_denominator: w, certifying_numerators } => trial
            .monic("d", d, 0)
            .or_else(|| trial.monic("w", w, 1))
            .or_else(|| trial.rows(d, numerators))
            .or_else(|| trial.divisible_columns(w, certifying_numerators))
            .or_else(|| trial.denominators(d, w, certifying_numerators)),
        Certificate::Absence { kernel } => trial.zero_columns(kernel).or_else(|| trial.right_side(kernel)),
    }
}

/// A system, the number of its right side that is meant, and how polynomials are shown.
struct Trial<'a> {
    system: &'a System,
    side: usize,
    notation: Notation,
}

impl Trial<'_> {
    fn modulus(&self) -> u32 {
        self.system.modulus
    }

    /// b.
    fn right(&self) -> &[Polynomial] {
        &self.system.sides[self.side]
    }

    /// Lines on b, and behind them which right side it is, where there are several.
    fn on_right(&self, mut lines: Vec<String>) -> Vec<String> {
        let count = self.system.sides.len();
        if count > 1 {
            lines.push(format!("b is right side {}, and the sheet has {count}", self.side));
        }
        lines
    }

    fn shown(&self, polynomial: &Polynomial) -> String {
        self.notation.polynomial(polynomial)
    }

    /// 31: the polynomial is not monic.
    fn monic(&self, name: &str, polynomial: &Polynomial, place: usize) -> Option<Fault> {
        if is_monic(polynomial) {
            return None;
        }
        let leading = match polynomial.last() {
            Some(c) => format!("its leading coefficient is {}, and must be 1", self.notation.number(*c)),
            None => "it has no leading coefficient, and must have 1".to_string(),
        };
        Some(Fault { number: 31, place, lines: vec![format!("{name} is {}", self.shown(polynomial)), leading] })
    }

    /// 32: A·N is not d·b in a row.
    fn rows(&self, d: &Polynomial, numerators: &[Polynomial]) -> Option<Fault> {
        self.system.matrix.iter().zip(self.right()).enumerate().find_map(|(row, (entries, right))| {
            let left = sum_of_products(entries.iter().zip(numerators), self.modulus());
            let names = [format!("row {row} of A*N"), format!("row {row} of d*b")];
            let lines = self.difference(names, &left, &multiply(d, right, self.modulus()))?;
            Some(Fault { number: 32, place: row, lines: self.on_right(lines) })
        })
    }

    /// 33: w does not divide a column of Z·A.
    fn divisible_columns(&self, w: &Polynomial, certifying_numerators: &[Polynomial]) -> Option<Fault> {
        (0..self.system.columns()).find_map(|column| {
            let product = self.column_product(certifying_numerators, column);
            let (_, remainder) = divide(&product, w, self.modulus());
            let lines = vec![
                format!("column {column} of Z*A is {}", self.shown(&product)),
                format!("w is {}", self.shown(w)),
                format!("the remainder of the first by the second is {}, and must be 0", self.shown(&remainder)),
            ];
            (!remainder.is_empty()).then_some(Fault { number: 33, place: column, lines })
        })
    }

    /// 34: w without what it has in common with Z·b is not d.
    fn denominators(&self, d: &Polynomial, w: &Polynomial, certifying_numerators: &[Polynomial]) -> Option<Fault> {
        let product = self.side_product(certifying_numerators);
        let common = gcd(w, &product, self.modulus());
        let certified = monic(&divide(w, &common, self.modulus()).0, self.modulus());
        let names = ["w divided by that divisor".to_string(), "d".to_string()];
        let mut lines =
            vec![format!("Z*b is {}", self.shown(&product)), format!("its divisor in common with w is {}", self.shown(&common))];
        lines.extend(self.difference(names, &certified, d)?);
        Some(Fault { number: 34, place: 0, lines: self.on_right(lines) })
    }

    /// 35: q·A is not zero in a column.
    fn zero_columns(&self, kernel: &[Polynomial]) -> Option<Fault> {
        (0..self.system.columns()).find_map(|column| {
            let product = self.column_product(kernel, column);
            let lines = vec![format!("column {column} of q*A is {}, and must be 0", self.shown(&product))];
            (!product.is_empty()).then_some(Fault { number: 35, place: column, lines })
        })
    }

    /// 36: q·b is zero.
    fn right_side(&self, kernel: &[Polynomial]) -> Option<Fault> {
        let lines = self.on_right(vec!["q*b is 0, and must not be".to_string()]);
        self.side_product(kernel).is_empty().then_some(Fault { number: 36, place: 0, lines })
    }

    /// A row vector times a column of A.
    fn column_product(&self, vector: &[Polynomial], column: usize) -> Polynomial {
        sum_of_products(vector.iter().zip(self.system.matrix.iter().map(|row| &row[column])), self.modulus())
    }

    /// A row vector times b.
    fn side_product(&self, vector: &[Polynomial]) -> Polynomial {
        sum_of_products(vector.iter().zip(self.right()), self.modulus())
    }

    /// Two polynomials that should be equal, and the highest power at which they are not; nothing where they are.
    fn difference(&self, names: [String; 2], left: &Polynomial, right: &Polynomial) -> Option<Vec<String>> {
        let at = |f: &Polynomial, power: usize| f.get(power).copied().unwrap_or(0);
        let power = (0..left.len().max(right.len())).rev().find(|power| at(left, *power) != at(right, *power))?;
        let [a, b] = [left, right].map(|f| self.notation.number(at(f, power)));
        Some(vec![
            format!("{} is {}", names[0], self.shown(left)),
            format!("{} is {}", names[1], self.shown(right)),
            format!("the highest power at which they differ is x^{power}: {a} and {b}"),
        ])
    }
}
