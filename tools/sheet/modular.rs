//! Polynomials modulo p: what the conditions on a certificate need. Every operation is the schoolbook one.

use crate::values::{canonical, Polynomial};

pub fn add(f: &Polynomial, g: &Polynomial, modulus: u32) -> Polynomial {
    let at = |h: &Polynomial, power: usize| u64::from(h.get(power).copied().unwrap_or(0));
    let sums = (0..f.len().max(g.len())).map(|power| (at(f, power) + at(g, power)) % u64::from(modulus));
    canonical(sums.map(|sum| sum as u32).collect())
}

pub fn multiply(f: &Polynomial, g: &Polynomial, modulus: u32) -> Polynomial {
    let mut product = vec![0; f.len() + g.len()];
    for (i, a) in f.iter().enumerate() {
        for (j, b) in g.iter().enumerate() {
            product[i + j] = (product[i + j] + u64::from(*a) * u64::from(*b)) % u64::from(modulus);
        }
    }
    canonical(product.iter().map(|sum| *sum as u32).collect())
}

/// The sum of the products, entry by entry.
pub fn sum_of_products<'a>(pairs: impl Iterator<Item = (&'a Polynomial, &'a Polynomial)>, modulus: u32) -> Polynomial {
    pairs.fold(Polynomial::new(), |sum, (f, g)| add(&sum, &multiply(f, g, modulus), modulus))
}

/// Quotient and remainder of f by g, which is not zero.
pub fn divide(f: &Polynomial, g: &Polynomial, modulus: u32) -> (Polynomial, Polynomial) {
    let inverse = inverse(g[g.len() - 1], modulus);
    let mut rest = f.clone();
    let mut quotient = vec![0; (f.len() + 1).saturating_sub(g.len())];
    for power in (0..quotient.len()).rev() {
        let factor = product(rest[power + g.len() - 1], inverse, modulus);
        quotient[power] = factor;
        for (j, b) in g.iter().enumerate() {
            rest[power + j] = (rest[power + j] + modulus - product(factor, *b, modulus)) % modulus;
        }
    }
    (canonical(quotient), canonical(rest))
}

/// The monic greatest common divisor; that of f and zero is f made monic.
pub fn gcd(f: &Polynomial, g: &Polynomial, modulus: u32) -> Polynomial {
    if g.is_empty() {
        return monic(f, modulus);
    }
    gcd(g, &divide(f, g, modulus).1, modulus)
}

/// f divided by its leading coefficient; zero stays zero.
pub fn monic(f: &Polynomial, modulus: u32) -> Polynomial {
    match f.last() {
        Some(leading) => {
            let inverse = inverse(*leading, modulus);
            f.iter().map(|c| product(*c, inverse, modulus)).collect()
        }
        None => Polynomial::new(),
    }
}

pub fn is_monic(f: &Polynomial) -> bool {
    f.last() == Some(&1)
}

fn product(a: u32, b: u32, modulus: u32) -> u32 {
    (u64::from(a) * u64::from(b) % u64::from(modulus)) as u32
}

/// The inverse of a number that is not 0 modulo p: its power p - 2, by Fermat.
fn inverse(a: u32, modulus: u32) -> u32 {
    let (mut power, mut square, mut exponent) = (1, a, modulus - 2);
    while exponent > 0 {
        if exponent % 2 == 1 {
            power = product(power, square, modulus);
        }
        square = product(square, square, modulus);
        exponent /= 2;
    }
    power
}
