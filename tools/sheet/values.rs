//! Systems and certificates as values, and the limits that they keep (docs/FORMAT.md, "The system" and "Bounds").

pub const LARGEST_MODULUS: u32 = 65_521;
pub const MOST_ROWS: usize = 8;
pub const MOST_COLUMNS: usize = 8;
/// Right sides of a system; they count from 0.
pub const MOST_SIDES: usize = 8;
/// Coefficients of a polynomial of a system: one more than the degree.
pub const SYSTEM_SIZE: usize = 16;
/// Coefficients of a polynomial of a certificate.
pub const CERTIFICATE_SIZE: usize = 121;
/// Words of the longest system, and of the longest certificate.
pub const LONGEST_SYSTEM: usize = 2_178;
pub const LONGEST_CERTIFICATE: usize = 2_198;

/// The coefficients, lowest power first, the last one not 0; none for zero.
pub type Polynomial = Vec<u32>;

/// A·y = b modulo p, for each b of the right sides. The matrix is A, row by row.
pub struct System {
    pub modulus: u32,
    pub matrix: Vec<Vec<Polynomial>>,
    pub sides: Vec<Vec<Polynomial>>,
}

impl System {
    pub fn columns(&self) -> usize {
        self.matrix[0].len()
    }
}

pub enum Certificate {
    /// d, N, w and Z: y = N/d and z = Z/w.
    Solution {
        denominator: Polynomial,
        numerators: Vec<Polynomial>,
        certifying_denominator: Polynomial,
        certifying_numerators: Vec<Polynomial>,
    },
    /// q.
    Absence { kernel: Vec<Polynomial> },
}

/// Why a number cannot be the modulus, as the end of a sentence; nothing if it can.
pub fn modulus_fault(number: u32) -> Option<String> {
    if number > LARGEST_MODULUS {
        return Some(format!("{number}, which is larger"));
    }
    if number < 2 {
        return Some(format!("{number}, which is smaller"));
    }
    let factor = (2..number).take_while(|f| f * f <= number).find(|f| number % f == 0)?;
    Some(format!("{number}, which is {factor} * {}", number / factor))
}

/// Drops the zeros behind the last coefficient that is not 0.
pub fn canonical(mut coefficients: Vec<u32>) -> Polynomial {
    while coefficients.last() == Some(&0) {
        coefficients.pop();
    }
    coefficients
}
