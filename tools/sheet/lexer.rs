//! The text cut into tokens, each with its position.

use crate::source::{Fault, Position};

#[derive(PartialEq)]
pub enum Token {
    /// Decimal digits, as many as there are: coefficients may have any length.
    Number(String),
    /// The digits of a raised number, as in x².
    Superscript(String),
    Name(String),
    Symbol(char),
    EndOfLine,
    EndOfText,
}

struct Lexeme {
    token: Token,
    at: Position,
}

/// The most characters of a token that an error shows.
const SHOWN: usize = 40;

const SUPERSCRIPTS: [char; 10] = ['⁰', '¹', '²', '³', '⁴', '⁵', '⁶', '⁷', '⁸', '⁹'];

/// A place in the sequence of tokens. The last token is the end of the text, and is never passed.
pub struct Cursor {
    lexemes: Vec<Lexeme>,
    next: usize,
}

impl Cursor {
    pub fn new(text: &str) -> Cursor {
        let mut lexemes = Vec::new();
        for (index, line) in text.split('\n').enumerate() {
            lex_line(line, index + 1, &mut lexemes);
        }
        if let Some(last) = lexemes.last_mut() {
            last.token = Token::EndOfText;
        }
        Cursor { lexemes, next: 0 }
    }

    pub fn token(&self) -> &Token {
        &self.lexemes[self.next].token
    }

    pub fn advance(&mut self) {
        if *self.token() != Token::EndOfText {
            self.next += 1;
        }
    }

    pub fn is_name(&self, name: &str) -> bool {
        matches!(self.token(), Token::Name(found) if found == name)
    }

    pub fn is_symbol(&self, symbol: char) -> bool {
        *self.token() == Token::Symbol(symbol)
    }

    /// Passes this symbol, if it is next.
    pub fn accept(&mut self, symbol: char) -> bool {
        let found = self.is_symbol(symbol);
        if found {
            self.advance();
        }
        found
    }

    pub fn is_line_end(&self) -> bool {
        matches!(self.token(), Token::EndOfLine | Token::EndOfText)
    }

    /// Whether the next token begins a number right behind the name of one letter that was passed last: `b0`, `b_0`, `b₀`.
    pub fn is_index(&self) -> bool {
        let [.., name, next] = &self.lexemes[..=self.next] else {
            return false;
        };
        let adjacent = next.at.line == name.at.line && next.at.column == name.at.column + 1;
        adjacent && matches!(next.token, Token::Number(_) | Token::Superscript(_) | Token::Symbol('_' | '₀'..='₉'))
    }

    pub fn skip_empty_lines(&mut self) {
        while *self.token() == Token::EndOfLine {
            self.advance();
        }
    }

    /// The next token is not what was expected.
    pub fn fault(&self, expected: &str) -> Fault {
        self.fault_found(expected, describe(self.token()))
    }

    /// The same, where there is more to say of the token.
    pub fn fault_found(&self, expected: &str, found: String) -> Fault {
        Fault { at: self.lexemes[self.next].at, expected: expected.to_string(), found, advice: None }
    }

    /// The same, where a polynomial or something behind one was expected: what to do about a token that none has.
    pub fn fault_in_polynomial(&self, expected: &str) -> Fault {
        Fault { advice: advice(self.token()), ..self.fault(expected) }
    }
}

fn advice(token: &Token) -> Option<&'static str> {
    match token {
        Token::Symbol('(' | ')') => Some("leave parentheses out, and multiply products out: `x^2 + x` for `x*(x + 1)`"),
        Token::Symbol('[' | ']') => Some("leave brackets out: a row is its entries with commas between them, on a line of its own"),
        Token::Symbol('*') => Some("a power is written `x^2`, and products are multiplied out: `x^2 + x` for `x*(x + 1)`"),
        Token::Symbol(';') => Some("each row stands on a line of its own"),
        Token::Name(name) if !["A", "a", "B", "b", "P", "p", "x"].contains(&name.as_str()) => {
            Some("the variable is `x`, and a polynomial has no other name in it")
        }
        _ => None,
    }
}

fn describe(token: &Token) -> String {
    match token {
        Token::Number(text) | Token::Name(text) => format!("`{}`", shortened(text)),
        Token::Superscript(digits) => format!("a raised {}", shortened(digits)),
        Token::Symbol(symbol) => format!("`{symbol}`"),
        Token::EndOfLine => "the end of the line".to_string(),
        Token::EndOfText => "the end of the text".to_string(),
    }
}

/// The text, cut where an error would show too much of it.
pub fn shortened(text: &str) -> String {
    match text.char_indices().nth(SHOWN) {
        Some((end, _)) => format!("{}...", &text[..end]),
        None => text.to_string(),
    }
}

/// The tokens of one line up to its comment, and the line's end.
fn lex_line(line: &str, number: usize, lexemes: &mut Vec<Lexeme>) {
    let content = line.split('#').next().unwrap_or("").trim_end();
    let characters: Vec<char> = content.chars().collect();
    let mut index = 0;
    while index < characters.len() {
        let at = Position { line: number, column: index + 1 };
        if characters[index].is_whitespace() {
            index += 1;
        } else {
            let (token, length) = first_token(&characters[index..]);
            lexemes.push(Lexeme { token, at });
            index += length;
        }
    }
    lexemes.push(Lexeme { token: Token::EndOfLine, at: Position { line: number, column: index + 1 } });
}

/// The token that these characters begin with, and how many of them it takes. Signs that papers use are taken for the plain ones.
fn first_token(characters: &[char]) -> (Token, usize) {
    let run = |member: fn(char) -> bool| characters.iter().take_while(|c| member(**c)).collect::<String>();
    let length = |text: &str| text.chars().count();
    match characters[0] {
        c if c.is_ascii_digit() => {
            let digits = run(|c| c.is_ascii_digit());
            (Token::Number(digits.clone()), length(&digits))
        }
        c if SUPERSCRIPTS.contains(&c) => {
            let raised = run(|c| SUPERSCRIPTS.contains(&c));
            (Token::Superscript(raised.chars().map(lowered).collect()), length(&raised))
        }
        c if c.is_alphabetic() => {
            let name = run(char::is_alphabetic);
            (Token::Name(name.clone()), length(&name))
        }
        '·' => (Token::Symbol('*'), 1),
        '−' => (Token::Symbol('-'), 1),
        c => (Token::Symbol(c), 1),
    }
}

fn lowered(superscript: char) -> char {
    let digit = SUPERSCRIPTS.iter().position(|s| *s == superscript).unwrap_or(0);
    char::from(b'0' + digit as u8)
}
