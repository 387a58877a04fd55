//! A system's text: `p`, then the rows of `A`, then `b` for each right side. README.md describes the form.

use crate::lexer::{Cursor, Token};
use crate::polynomial::{begins, polynomial};
use crate::source::Fault;
use crate::values::{modulus_fault, Polynomial, System, LARGEST_MODULUS, MOST_COLUMNS, MOST_ROWS, MOST_SIDES};

/// The system that the text describes, within the limits (docs/FORMAT.md, "Bounds").
pub fn system(text: &str) -> Result<System, Fault> {
    let cursor = &mut Cursor::new(text);
    let modulus = modulus(cursor)?;
    let matrix = matrix(cursor, modulus)?;
    let sides = sides(cursor, modulus, matrix.len())?;
    Ok(System { modulus, matrix, sides })
}

/// Why no number stands right behind these names: it could be meant for that of a matrix or a right side, or for a first entry.
const ONE_MATRIX: &str = "there is one A, and it has no number";
const SIDES_IN_ORDER: &str = "right sides have no number in a text: each further `b` is the next one";

/// The name of a part, with or without `=` behind it. An index of the name is refused where there is advice about it.
fn heading(cursor: &mut Cursor, name: &str, expected: &str, no_index: Option<&'static str>) -> Result<(), Fault> {
    cursor.skip_empty_lines();
    if !cursor.is_name(name) {
        return Err(cursor.fault(expected));
    }
    cursor.advance();
    if no_index.is_some() && cursor.is_index() {
        let fault = cursor.fault(&format!("a blank, `=` or the end of the line behind `{name}`"));
        return Err(Fault { advice: no_index, ..fault });
    }
    cursor.accept('=');
    Ok(())
}

fn modulus(cursor: &mut Cursor) -> Result<u32, Fault> {
    heading(cursor, "p", "`p` and a prime, such as `p 3`", None)?;
    let expected = format!("a prime from 2 to {LARGEST_MODULUS}");
    let Token::Number(digits) = cursor.token() else {
        return Err(cursor.fault(&expected));
    };
    let Ok(value) = digits.parse::<u32>() else {
        return Err(cursor.fault(&expected));
    };
    if let Some(found) = modulus_fault(value) {
        return Err(cursor.fault_found(&expected, found));
    }
    cursor.advance();
    if !cursor.is_line_end() {
        return Err(cursor.fault("the end of the line behind p"));
    }
    Ok(value)
}

fn matrix(cursor: &mut Cursor, modulus: u32) -> Result<Vec<Vec<Polynomial>>, Fault> {
    heading(cursor, "A", "`A`, then its rows", Some(ONE_MATRIX))?;
    cursor.skip_empty_lines();
    if !begins(cursor) {
        return Err(cursor.fault_in_polynomial("the first row of A, such as `x^2, 2*x + 1`"));
    }
    let mut rows = vec![row(cursor, modulus, None)?];
    while !cursor.is_name("b") {
        if rows.len() == MOST_ROWS {
            return Err(cursor.fault(&format!("`b`, as A has at most {MOST_ROWS} rows")));
        }
        if !begins(cursor) {
            return Err(cursor.fault_in_polynomial("another row of A, or `b`"));
        }
        rows.push(row(cursor, modulus, Some(rows[0].len()))?);
    }
    Ok(rows)
}

/// A row of A, and the empty lines behind it. The first row decides how many columns there are.
fn row(cursor: &mut Cursor, modulus: u32, columns: Option<usize>) -> Result<Vec<Polynomial>, Fault> {
    let limit = match columns {
        Some(count) => format!("the first row of A has {count}"),
        None => format!("a row of A has at most {MOST_COLUMNS} entries"),
    };
    let mut entries = vec![polynomial(cursor, modulus)?];
    while entries.len() < columns.unwrap_or(MOST_COLUMNS) && cursor.accept(',') {
        entries.push(polynomial(cursor, modulus)?);
    }
    if cursor.is_symbol(',') {
        return Err(cursor.fault(&format!("the end of the line, as {limit}")));
    }
    line_end(cursor)?;
    if columns.is_some_and(|count| entries.len() < count) {
        return Err(cursor.fault(&format!("`,` and entry {} of the row, as {limit}", entries.len() + 1)));
    }
    cursor.skip_empty_lines();
    Ok(entries)
}

/// The right sides, each behind a `b` of its own, up to the end of the text.
fn sides(cursor: &mut Cursor, modulus: u32, rows: usize) -> Result<Vec<Vec<Polynomial>>, Fault> {
    let mut sides = Vec::new();
    loop {
        let number = sides.len();
        sides.push(side(cursor, modulus, rows, number)?);
        if *cursor.token() == Token::EndOfText {
            return Ok(sides);
        }
        let another = if sides.len() < MOST_SIDES { "`b` and another right side, or " } else { "" };
        if !cursor.is_name("b") {
            let expected = format!("{another}the end of the text, as b (right side {number}) has one entry for each row of A");
            return Err(cursor.fault(&expected));
        }
        if sides.len() == MOST_SIDES {
            return Err(cursor.fault(&format!("the end of the text, as a sheet has at most {MOST_SIDES} right sides")));
        }
    }
}

/// One entry for each row, with commas or line ends between them. The number is that of the right side.
fn side(cursor: &mut Cursor, modulus: u32, rows: usize, number: usize) -> Result<Vec<Polynomial>, Fault> {
    heading(cursor, "b", "`b`", Some(SIDES_IN_ORDER))?;
    cursor.skip_empty_lines();
    let mut entries = Vec::new();
    while entries.len() < rows {
        if !begins(cursor) {
            let expected = format!("entry {} of b (right side {number}), which has one for each row of A", entries.len() + 1);
            return Err(cursor.fault_in_polynomial(&expected));
        }
        entries.push(polynomial(cursor, modulus)?);
        if entries.len() < rows && cursor.accept(',') {
            continue;
        }
        // A comma behind the last entry is an entry too many, which is said by the caller.
        if !cursor.is_symbol(',') {
            line_end(cursor)?;
            cursor.skip_empty_lines();
        }
    }
    Ok(entries)
}

/// The end of the line is next; it is not passed.
fn line_end(cursor: &Cursor) -> Result<(), Fault> {
    if cursor.is_line_end() {
        return Ok(());
    }
    Err(cursor.fault_in_polynomial("`+`, `-`, `,` or the end of the line"))
}
