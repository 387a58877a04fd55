//! The text as characters, places in it, and how an error at such a place is printed.

/// A line and a column, both from 1. Columns count characters.
#[derive(Clone, Copy)]
pub struct Position {
    pub line: usize,
    pub column: usize,
}

/// What is wrong with a text, and where; and what to do, where that is known.
pub struct Fault {
    pub at: Position,
    pub expected: String,
    pub found: String,
    pub advice: Option<&'static str>,
}

/// The most characters of a line that an error shows, and what stands for those that are left out.
const WIDTH: usize = 120;
const LEFT_OUT: &str = "...";

impl Fault {
    /// `FILE:LINE:COLUMN: expected ..., found ...; ...`, then that line of the text, cut where it is long, with a mark under the column.
    pub fn report(&self, file: &str, text: &str) -> String {
        let Position { line, column } = self.at;
        let advice = self.advice.map(|advice| format!("; {advice}")).unwrap_or_default();
        let first = format!("{file}:{line}:{column}: expected {}, found {}{advice}\n", self.expected, self.found);
        match text.lines().nth(line - 1) {
            Some(shown) => first + &marked(shown, column - 1),
            None => first,
        }
    }
}

/// The line, cut to what is around a character of it or behind its last one, and below it a mark under that character.
fn marked(line: &str, index: usize) -> String {
    let characters: Vec<char> = line.chars().collect();
    let most = if characters.len() <= WIDTH { WIDTH } else { WIDTH - 2 * LEFT_OUT.len() };
    let start = index.saturating_sub(most / 2).min(characters.len().saturating_sub(most));
    let end = characters.len().min(start + most);
    let before = if start > 0 { LEFT_OUT } else { "" };
    let behind = if end < characters.len() { LEFT_OUT } else { "" };
    let shown: String = characters[start..end].iter().collect();
    // Blanks as wide as the characters before the mark: a tab stays a tab, however wide it is shown.
    let blanks: String = characters[start..index.min(end)].iter().map(|c| if *c == '\t' { '\t' } else { ' ' }).collect();
    format!("{before}{shown}{behind}\n{}{blanks}^\n", " ".repeat(before.len()))
}

/// The text of a file's bytes. Control characters are looked for first: small files of words are valid UTF-8.
pub fn decode(bytes: &[u8]) -> Result<&str, Fault> {
    let control = |b: &u8| b.is_ascii_control() && !b"\t\r\n".contains(b);
    if let Some(first) = bytes.iter().position(control) {
        let found = format!("the byte {:02X}; a sheet is shown by `show`", bytes[first]);
        return Err(not_text(&bytes[..first], found));
    }
    let text = std::str::from_utf8(bytes).map_err(|error| {
        let first = error.valid_up_to();
        not_text(&bytes[..first], format!("the byte {:02X}, which is not UTF-8", bytes[first]))
    })?;
    // A mark of the byte order, which some editors put first, is no part of the text.
    Ok(text.strip_prefix('\u{feff}').unwrap_or(text))
}

fn not_text(before: &[u8], found: String) -> Fault {
    Fault { at: position_behind(before), expected: "text".to_string(), found, advice: None }
}

/// The position behind these bytes, which are text as far as possible.
fn position_behind(bytes: &[u8]) -> Position {
    let text = String::from_utf8_lossy(bytes);
    let last = text.rsplit('\n').next().unwrap_or("");
    Position { line: text.matches('\n').count() + 1, column: last.chars().count() + 1 }
}
