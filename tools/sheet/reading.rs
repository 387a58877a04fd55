//! Bytes of files to systems and certificates, or the refusal of the first word at fault (docs/REFUSALS.md).

use crate::refusal::{Reason, Refusal, Subject};
use crate::values::{modulus_fault, Certificate, Polynomial, System, LONGEST_SYSTEM, MOST_COLUMNS, MOST_ROWS, MOST_SIDES};
use crate::words::{has_kind, payload, sides_in, words_of, Kind, ABSENCE, SOLUTION};

/// The words of a file from the first on.
struct Walk {
    subject: Subject,
    words: Vec<u32>,
    /// How many are read.
    count: usize,
}

impl Walk {
    /// A refusal of the word that was read last.
    fn refuse<T>(&self, reason: Reason) -> Result<T, Refusal> {
        Err(Refusal { subject: self.subject, reason, place: self.count.saturating_sub(1) })
    }

    /// The next word; `due` says which kind it should be.
    fn next(&mut self, due: Kind) -> Result<u32, Refusal> {
        self.count += 1;
        match self.words.get(self.count - 1) {
            Some(word) => Ok(*word),
            None => self.refuse(Reason::Missing { due }),
        }
    }

    /// The payload of the next word, which has this kind.
    fn payload(&mut self, due: Kind) -> Result<u32, Refusal> {
        let found = self.next(due)?;
        if !has_kind(found, due) {
            return self.refuse(Reason::Kind { due, found });
        }
        Ok(payload(found))
    }

    fn polynomial(&mut self, modulus: u32) -> Result<Polynomial, Refusal> {
        let size = self.payload(Kind::Start)?;
        if size as usize > self.subject.size() {
            return self.refuse(Reason::Size { found: size });
        }
        let mut coefficients = Vec::new();
        for left in (0..size).rev() {
            let found = self.payload(Kind::Coefficient)?;
            if found >= modulus {
                return self.refuse(Reason::Range { found, modulus });
            }
            if left == 0 && found == 0 {
                return self.refuse(Reason::Leading);
            }
            coefficients.push(found);
        }
        Ok(coefficients)
    }

    fn vector(&mut self, modulus: u32, length: usize) -> Result<Vec<Polynomial>, Refusal> {
        (0..length).map(|_| self.polynomial(modulus)).collect()
    }

    /// So many vectors, of one length.
    fn vectors(&mut self, modulus: u32, count: usize, length: usize) -> Result<Vec<Vec<Polynomial>>, Refusal> {
        (0..count).map(|_| self.vector(modulus, length)).collect()
    }

    /// The end word, with no word behind it.
    fn end(&mut self) -> Result<(), Refusal> {
        let found = self.payload(Kind::End)?;
        let words = self.count;
        if found as usize != words {
            return self.refuse(Reason::Count { found, words });
        }
        if words < self.words.len() {
            self.count += 1;
            return self.refuse(Reason::Behind);
        }
        Ok(())
    }
}

/// Number 10, of a file of so many bytes: they are not whole words, or more than a system has.
pub fn file(subject: Subject, bytes: usize) -> Result<(), Refusal> {
    if bytes % 4 != 0 || subject == Subject::System && bytes > 4 * LONGEST_SYSTEM {
        return Err(Refusal { subject, reason: Reason::Bytes { found: bytes }, place: 0 });
    }
    Ok(())
}

/// The system of a file's bytes. Number 10 comes before all others.
pub fn system(bytes: &[u8]) -> Result<System, Refusal> {
    file(Subject::System, bytes.len())?;
    let mut walk = Walk { subject: Subject::System, words: words_of(bytes), count: 0 };
    let head = system_head(&mut walk)?;
    let matrix = walk.vectors(head.modulus, head.rows, head.columns)?;
    let sides = walk.vectors(head.modulus, head.sides, head.rows)?;
    walk.end()?;
    Ok(System { modulus: head.modulus, matrix, sides })
}

/// What the head of a system says.
struct Head {
    modulus: u32,
    rows: usize,
    columns: usize,
    sides: usize,
}

fn system_head(walk: &mut Walk) -> Result<Head, Refusal> {
    let found = walk.next(Kind::SystemHead)?;
    if !has_kind(found, Kind::SystemHead) {
        return walk.refuse(Reason::Head { found });
    }
    let sides = sides_in(found);
    if sides > MOST_SIDES {
        return walk.refuse(Reason::Sides { found });
    }
    let (modulus, rows, columns) = (found & 0xFFFF, found >> 16 & 0xF, found >> 20 & 0xF);
    if modulus_fault(modulus).is_some() {
        return walk.refuse(Reason::Modulus { found: modulus });
    }
    let (n, m) = (rows as usize, columns as usize);
    if !(1..=MOST_ROWS).contains(&n) || !(1..=MOST_COLUMNS).contains(&m) {
        return walk.refuse(Reason::Shape { rows, columns });
    }
    Ok(Head { modulus, rows: n, columns: m, sides })
}

/// The certificate of a file's bytes, which are whole words, for a system of this shape.
pub fn certificate(bytes: &[u8], system: &System) -> Result<Certificate, Refusal> {
    let mut walk = Walk { subject: Subject::Certificate, words: words_of(bytes), count: 0 };
    let (modulus, rows, columns) = (system.modulus, system.matrix.len(), system.columns());
    let found = walk.next(Kind::CertificateHead)?;
    let certificate = match payload(found) {
        SOLUTION if has_kind(found, Kind::CertificateHead) => Certificate::Solution {
            denominator: walk.polynomial(modulus)?,
            numerators: walk.vector(modulus, columns)?,
            certifying_denominator: walk.polynomial(modulus)?,
            certifying_numerators: walk.vector(modulus, rows)?,
        },
        ABSENCE if has_kind(found, Kind::CertificateHead) => Certificate::Absence { kernel: walk.vector(modulus, rows)? },
        _ => return walk.refuse(Reason::Head { found }),
    };
    walk.end()?;
    Ok(certificate)
}
