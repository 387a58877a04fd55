//! Refusals: the sentence of the table for a number, and, of files that are not well formed, what is found there.

use crate::refusals::{Entry, TABLE};
use crate::values::{modulus_fault, CERTIFICATE_SIZE, LONGEST_SYSTEM, MOST_SIDES, SYSTEM_SIZE};
use crate::words::{has_kind, sides_in, Kind};

/// What is read.
#[derive(Clone, Copy, PartialEq)]
pub enum Subject {
    System,
    Certificate,
}

/// What is wrong, with the values that are found there.
pub enum Reason {
    Head { found: u32 },
    Sides { found: u32 },
    Modulus { found: u32 },
    Shape { rows: u32, columns: u32 },
    Missing { due: Kind },
    Kind { due: Kind, found: u32 },
    Size { found: u32 },
    Range { found: u32, modulus: u32 },
    Leading,
    Count { found: u32, words: usize },
    Behind,
    Bytes { found: usize },
}

pub struct Refusal {
    pub subject: Subject,
    pub reason: Reason,
    pub place: usize,
}

impl Subject {
    /// The most coefficients of a polynomial.
    pub fn size(self) -> usize {
        match self {
            Subject::System => SYSTEM_SIZE,
            Subject::Certificate => CERTIFICATE_SIZE,
        }
    }

    fn name(self) -> &'static str {
        match self {
            Subject::System => "sheet",
            Subject::Certificate => "card",
        }
    }
}

/// The entry of the table for a number.
pub fn entry(number: u32) -> Option<&'static Entry> {
    TABLE.iter().find(|entry| entry.number == number)
}

/// The refusal as all programs print it, then the file's name and the table's sentence, then what is found there.
pub fn report(number: u32, place: usize, file: &str, lines: &[String]) -> String {
    let meaning = entry(number).map_or("", |entry| entry.meaning);
    let found: String = lines.iter().map(|line| format!("  {line}\n")).collect();
    format!("refused {number} at {place}\n{file}: {meaning}\n{found}")
}

impl Refusal {
    /// The number in the table. On a certificate all but 10 are larger by 20.
    pub fn number(&self) -> u32 {
        let number = match self.reason {
            Reason::Head { .. } | Reason::Sides { .. } => 1,
            Reason::Modulus { .. } => 2,
            Reason::Shape { .. } => 3,
            Reason::Missing { .. } => 4,
            Reason::Kind { .. } => 5,
            Reason::Size { .. } => 6,
            Reason::Range { .. } => 7,
            Reason::Leading => 8,
            Reason::Count { .. } | Reason::Behind => 9,
            Reason::Bytes { .. } => return 10,
        };
        if self.subject == Subject::System {
            number
        } else {
            number + 20
        }
    }

    pub fn report(&self, file: &str) -> String {
        report(self.number(), self.place, file, &[self.found()])
    }

    /// What is found at the place.
    fn found(&self) -> String {
        let word = format!("word {}", self.place);
        match self.reason {
            Reason::Head { found } => format!("{word} is {found:08X}, and {}", self.head(found)),
            Reason::Sides { found } => {
                format!("{word} is {found:08X}, and says {} right sides: a sheet has 1 to {MOST_SIDES}", sides_in(found))
            }
            Reason::Modulus { found } => format!("p in {word} is {}", modulus_fault(found).unwrap_or_default()),
            Reason::Shape { rows, columns } => format!("{word} says {rows} rows and {columns} columns"),
            Reason::Missing { due } => format!("{word}, which should be {}, is missing", self.due(due)),
            Reason::Kind { due, found } => format!("{word} should be {}, and is {found:08X}", self.due(due)),
            Reason::Size { found } => format!("{word} begins a polynomial of {found} coefficients"),
            Reason::Range { found, modulus } => format!("{word} is the coefficient {found}, and p is {modulus}"),
            Reason::Leading => format!("{word} is the last coefficient of its polynomial, and is 0"),
            Reason::Count { found, words } => format!("{word} is the end of {words} words, and says {found}"),
            Reason::Behind => format!("{word} stands behind the end word"),
            Reason::Bytes { found } => self.bytes(found),
        }
    }

    fn head(&self, found: u32) -> &'static str {
        match self.subject {
            Subject::System if has_kind(found, Kind::CertificateHead) => {
                "begins a card, not a sheet: `show SHEET CARD` shows a card"
            }
            Subject::System => "the head of a sheet has 1 as its first digit",
            Subject::Certificate if has_kind(found, Kind::SystemHead) => {
                "begins a sheet, not a card: `show SHEET CARD` has the sheet first"
            }
            Subject::Certificate => "the head of a card is 50000001 for a solution, 50000002 for an absence",
        }
    }

    fn bytes(&self, found: usize) -> String {
        let most = 4 * LONGEST_SYSTEM;
        if self.subject == Subject::System && found > most {
            format!("this file has more than {most} bytes")
        } else {
            format!("this file has {found} bytes")
        }
    }

    fn due(&self, kind: Kind) -> String {
        match kind {
            Kind::SystemHead | Kind::CertificateHead => format!("the head of a {}", self.subject.name()),
            Kind::Start => "the start of a polynomial (2.......)".to_string(),
            Kind::Coefficient => "a coefficient (3.......)".to_string(),
            Kind::End => "the end (4.......)".to_string(),
        }
    }
}
