//! Polynomials in the text: terms such as `2*x^3`, `2x`, `x²`, `5`, joined by `+` and `-`.

use crate::lexer::{Cursor, Token};
use crate::source::Fault;
use crate::values::{canonical, Polynomial, SYSTEM_SIZE};

/// Whether a polynomial can begin with the next token.
pub fn begins(cursor: &Cursor) -> bool {
    match cursor.token() {
        Token::Number(_) | Token::Symbol('+' | '-') => true,
        _ => cursor.is_name("x"),
    }
}

/// The polynomial that comes next, its coefficients reduced modulo p. Terms of the same power are added up.
pub fn polynomial(cursor: &mut Cursor, modulus: u32) -> Result<Polynomial, Fault> {
    let mut coefficients = vec![0; SYSTEM_SIZE];
    let mut negative = sign(cursor).unwrap_or(false);
    loop {
        let (value, exponent) = term(cursor, modulus)?;
        let signed = if negative { modulus - value } else { value };
        coefficients[exponent] = (coefficients[exponent] + signed) % modulus;
        match sign(cursor) {
            Some(next) => negative = next,
            None => return Ok(canonical(coefficients)),
        }
    }
}

/// Passes a sign, if one is next: whether it is a minus.
fn sign(cursor: &mut Cursor) -> Option<bool> {
    if cursor.accept('-') {
        Some(true)
    } else if cursor.accept('+') {
        Some(false)
    } else {
        None
    }
}

/// A term: its coefficient modulo p, and its exponent.
fn term(cursor: &mut Cursor, modulus: u32) -> Result<(u32, usize), Fault> {
    let coefficient = match cursor.token() {
        Token::Number(digits) => Some(remainder(digits, modulus)),
        _ => None,
    };
    if coefficient.is_some() {
        cursor.advance();
        if cursor.accept('*') && !cursor.is_name("x") {
            return Err(cursor.fault_in_polynomial("`x` after `*`"));
        }
    }
    if cursor.is_name("x") {
        cursor.advance();
        return Ok((coefficient.unwrap_or(1), exponent(cursor)?));
    }
    match coefficient {
        Some(value) => Ok((value, 0)),
        None => Err(cursor.fault_in_polynomial("a term such as `2*x^3`")),
    }
}

/// The exponent behind an `x`. It is bounded even where the coefficient is 0 modulo p: a limit that one can see in the text.
fn exponent(cursor: &mut Cursor) -> Result<usize, Fault> {
    if !cursor.accept('^') && !matches!(cursor.token(), Token::Superscript(_)) {
        return Ok(1);
    }
    let value = match cursor.token() {
        Token::Number(digits) | Token::Superscript(digits) => small(digits),
        _ => usize::MAX,
    };
    if value >= SYSTEM_SIZE {
        return Err(cursor.fault(&format!("an exponent from 0 to {}", SYSTEM_SIZE - 1)));
    }
    cursor.advance();
    Ok(value)
}

fn remainder(digits: &str, modulus: u32) -> u32 {
    digits.bytes().fold(0, |value, digit| (value * 10 + u32::from(digit - b'0')) % modulus)
}

/// The number, or the largest one where it is larger.
fn small(digits: &str) -> usize {
    digits.bytes().fold(0, |value: usize, digit| value.saturating_mul(10).saturating_add(usize::from(digit - b'0')))
}
