//! sheet: systems as text to files of words, and files of words as text. README.md describes the text.

mod check;
mod lexer;
mod modular;
mod polynomial;
mod reading;
mod receiver;
mod refusal;
mod refusals;
mod show;
mod source;
mod text;
mod values;
mod words;

use lexer::shortened;
use refusal::Subject;
use show::Notation;
use std::ffi::{OsStr, OsString};
use std::fs::{canonicalize, metadata, remove_file, File};
use std::io::{copy, sink, stdin, stdout, Error, ErrorKind, IsTerminal, Read, Result as IoResult, Seek, Write};
use std::os::fd::AsFd;
use std::os::unix::fs::MetadataExt;
use std::path::Path;
use std::process::ExitCode;
use values::{System, LONGEST_CERTIFICATE, LONGEST_SYSTEM};

/// The commands; NAME stands for the name that the tool is called by.
const HELP: &str = "\
NAME write TEXT SHEET                   write the system in the file TEXT to the file SHEET
NAME write TEXT > SHEET                 the same
NAME show [--signed] SHEET              show a system as text that `write` reads
NAME show [--signed] SHEET CARD [SIDE]  show a certificate, and its feedback and delay or what is wrong with it
NAME explain NUMBER                     say what a refusal means and what to do
NAME --help                             show this

--signed shows p - 1 as -1 and so on; - is standard input. SIDE says which right side is meant: they count from
0, which is taken where none is given. A text, in which # begins a comment and a further b the next right side:

  p 3
  A
    x^2, x^2 + x
  b
    1

The exit status is 0, or 1 where a file or a number is at fault, or 2 where the command is. Nothing is proved
of this tool: the verdict on a card is that of `cardcheck`. linksheet(1) or tools/sheet/README.md has more.
";

/// The most bytes that are read of a text, and of a certificate whose length the system does not tell.
const MOST_BYTES: u64 = 1 << 24;

const ACCEPTED: &str = "# check: would be accepted (unproved; cardcheck gives the proved verdict)\n";
const UNPROVED: &str = "(unproved; cardcheck gives the proved verdict)";

/// What goes to standard output and to standard error. What is said on standard error is a fault of a file.
#[derive(Default)]
struct Answer {
    output: Vec<u8>,
    error: String,
}

/// Why there is no answer, as it is said on standard error: the command is at fault, or a file or a number is.
enum Failure {
    Command(String),
    File(String),
}

impl From<String> for Failure {
    fn from(error: String) -> Failure {
        Failure::File(error)
    }
}

fn main() -> ExitCode {
    let arguments: Vec<OsString> = std::env::args_os().skip(1).collect();
    let answer = match command(&arguments) {
        Ok(answer) => answer,
        Err(Failure::File(error)) => Answer { error, ..Answer::default() },
        Err(Failure::Command(error)) => {
            eprint!("{error}");
            return ExitCode::from(2);
        }
    };
    let put = put(&answer.output);
    eprint!("{}{}", answer.error, put.as_ref().err().map_or("", String::as_str));
    if put.is_ok() && answer.error.is_empty() {
        ExitCode::SUCCESS
    } else {
        ExitCode::FAILURE
    }
}

fn help() -> String {
    let called = std::env::args_os().next().unwrap_or_default();
    let name = Path::new(&called).file_name().unwrap_or_default();
    HELP.replace("NAME", &shown(name))
}

fn no_command() -> Failure {
    Failure::Command(format!("this is no command; these are:\n\n{}", help()))
}

/// The answer to a command, or why there is none.
fn command(arguments: &[OsString]) -> Result<Answer, Failure> {
    let (name, rest) = arguments.split_first().ok_or_else(no_command)?;
    let rest: Vec<&OsStr> = rest.iter().map(OsString::as_os_str).collect();
    let output = match (name.to_str().unwrap_or_default(), &rest[..]) {
        ("--help" | "-h" | "help", []) => help().into(),
        ("write", [text]) => write_to_output(text)?,
        ("write", [text, sheet]) => write_to_file(text, sheet)?,
        ("explain", [number]) => explanation(number)?,
        ("show", files) => return show(files),
        _ => return Err(no_command()),
    };
    Ok(Answer { output, ..Answer::default() })
}

/// One file, or two and the number of a right side, with the option before, between or behind them.
fn show(arguments: &[&OsStr]) -> Result<Answer, Failure> {
    let (options, others): (Vec<&OsStr>, Vec<&OsStr>) = arguments.iter().partition(|argument| **argument == "--signed");
    let signed = !options.is_empty();
    match others[..] {
        [sheet] => Ok(show_system(sheet, signed)?),
        [sheet, card, ref rest @ ..] if rest.len() <= 1 && (sheet != "-" || card != "-") => {
            let side = rest.first().map_or(Ok("0"), |side| digits(side))?;
            Ok(show_certificate(sheet, card, side, signed)?)
        }
        _ => Err(no_command()),
    }
}

/// The digits, as many as there are, of an argument that is the number of a right side.
fn digits(argument: &OsStr) -> Result<&str, Failure> {
    let digits = argument.to_str().filter(|text| !text.is_empty() && text.bytes().all(|c| c.is_ascii_digit()));
    digits.ok_or_else(|| {
        let found = shortened(&shown(argument));
        Failure::Command(format!("SIDE is the number of a right side, in digits, from 0; `{found}` is not\n"))
    })
}

/// To standard output. A reader that has seen enough, as `head` has, is no error worth a line.
fn put(bytes: &[u8]) -> Result<(), String> {
    let mut output = stdout().lock();
    match output.write_all(bytes).and_then(|()| output.flush()) {
        Err(error) if error.kind() == ErrorKind::BrokenPipe => Err(String::new()),
        result => result.map_err(|error| format!("standard output: {error}\n")),
    }
}

/// A file's name for messages, on one line.
fn shown(file: &OsStr) -> String {
    file.to_string_lossy().replace(char::is_control, "?")
}

fn opened(file: &OsStr) -> IoResult<File> {
    if file == "-" {
        return Ok(File::from(stdin().as_fd().try_clone_to_owned()?));
    }
    File::open(file)
}

/// The file as it is said in a message, and what is wrong with it.
fn fault(file: &OsStr, error: Error) -> String {
    format!("{}: {error}\n", shown(file))
}

fn endless() -> Error {
    Error::other(format!("no end within {MOST_BYTES} bytes"))
}

/// The bytes of a file, no more than so many.
fn bytes_of(file: &OsStr, most: u64) -> Result<Vec<u8>, String> {
    let mut bytes = Vec::new();
    let read = opened(file).and_then(|f| f.take(most).read_to_end(&mut bytes));
    read.map(|_| bytes).map_err(|error| fault(file, error))
}

/// The bytes of the system that a text describes.
fn system_bytes(file: &OsStr) -> Result<Vec<u8>, String> {
    let bytes = bytes_of(file, MOST_BYTES + 1)?;
    if bytes.len() as u64 > MOST_BYTES {
        return Err(fault(file, endless()));
    }
    let text = source::decode(&bytes).map_err(|fault| fault.report(&shown(file), ""))?;
    let system = text::system(text).map_err(|fault| fault.report(&shown(file), text))?;
    Ok(words::bytes_of(&words::system_words(&system)))
}

fn write_to_output(text: &OsStr) -> Result<Vec<u8>, String> {
    let bytes = system_bytes(text)?;
    if stdout().is_terminal() {
        return Err("a sheet is no text for a terminal: name a file for it, or use `>`\n".to_string());
    }
    Ok(bytes)
}

fn write_to_file(text: &OsStr, sheet: &OsStr) -> Result<Vec<u8>, String> {
    let bytes = system_bytes(text)?;
    if is_same_file(text, sheet) {
        return Err(format!("{}: this is the text itself, which would be lost\n", shown(sheet)));
    }
    let mut file = File::create(sheet).map_err(|error| fault(sheet, error))?;
    file.write_all(&bytes).map_err(|error| {
        // a part of a sheet is of no use
        if file.metadata().is_ok_and(|about| about.is_file()) {
            let _ = canonicalize(sheet).and_then(remove_file);
        }
        fault(sheet, error)
    })?;
    Ok(Vec::new())
}

/// Whether both are there and are one file on the disk, under whatever names.
fn is_same_file(text: &OsStr, sheet: &OsStr) -> bool {
    let about = if text == "-" { opened(text).and_then(|file| file.metadata()) } else { metadata(text) };
    match (about, metadata(sheet)) {
        (Ok(one), Ok(other)) => one.is_file() && (one.dev(), one.ino()) == (other.dev(), other.ino()),
        _ => false,
    }
}

/// What the table says of a number.
fn explanation(number: &OsStr) -> Result<Vec<u8>, String> {
    let entry = number.to_str().and_then(|digits| digits.parse().ok()).and_then(refusal::entry);
    let entry = entry.ok_or_else(|| {
        format!("{}: no refusal has this number; yezsdolak(5) and docs/REFUSALS.md have the table\n", shown(number))
    })?;
    let text = format!("{}: {}\nplace: {}\nwhat to do: {}\n", entry.number, entry.meaning, entry.place, entry.remedy);
    Ok(text.into())
}

/// One byte more than the longest system has, so that a longer one is known.
fn sheet_bytes(sheet: &OsStr) -> Result<Vec<u8>, String> {
    bytes_of(sheet, 4 * LONGEST_SYSTEM as u64 + 1)
}

fn system_of(sheet: &OsStr, bytes: &[u8]) -> Result<System, String> {
    reading::system(bytes).map_err(|refusal| refusal.report(&shown(sheet)))
}

fn show_system(sheet: &OsStr, signed: bool) -> Result<Answer, String> {
    let system = system_of(sheet, &sheet_bytes(sheet)?)?;
    let notation = Notation { modulus: system.modulus, signed };
    Ok(Answer { output: notation.system(&system).into(), ..Answer::default() })
}

/// The bytes of a certificate's file that decide: one word more than the longest has, so that a word behind its end gets its number.
fn card_bytes(card: &OsStr) -> Result<Vec<u8>, String> {
    let mut file = opened(card).map_err(|error| fault(card, error))?;
    let mut bytes = Vec::new();
    let deciding = 4 * (LONGEST_CERTIFICATE as u64 + 1);
    let read = (&mut file).take(deciding).read_to_end(&mut bytes).and_then(|_| length_of(&mut file, bytes.len() as u64));
    let length = read.map_err(|error| fault(card, error))?;
    reading::file(Subject::Certificate, length as usize).map_err(|refusal| refusal.report(&shown(card)))?;
    Ok(bytes)
}

/// The length of a file of which so many bytes are read: the system tells that of one on the disk, any other is read to its end.
fn length_of(file: &mut File, read: u64) -> IoResult<u64> {
    let about = file.metadata()?;
    if about.is_file() {
        let left = about.len().saturating_sub(file.stream_position()?);
        if left > 0 {
            return Ok(read + left);
        }
    }
    let rest = copy(&mut file.take(MOST_BYTES + 1 - read), &mut sink())?;
    if read + rest > MOST_BYTES {
        return Err(endless());
    }
    Ok(read + rest)
}

/// The right side that these digits are the number of, or refusal 40.
fn side_of(system: &System, sheet: &OsStr, digits: &str) -> Result<usize, String> {
    let count = system.sides.len();
    digits.parse().ok().filter(|side| *side < count).ok_or_else(|| {
        let there = if count == 1 { "right side 0 only".to_string() } else { format!("right sides 0 to {}", count - 1) };
        refusal::report(40, 0, &shown(sheet), &[format!("it has {there}, and {} is asked for", shortened(digits))])
    })
}

/// Number 10, of either file, comes before what is wrong with their words, and 40 behind what is wrong with the system's. A certificate
/// that reads is shown, right or not; of its receiver nothing is said unless it is right, since a wrong d says nothing of the link.
fn show_certificate(sheet: &OsStr, card: &OsStr, digits: &str, signed: bool) -> Result<Answer, String> {
    let written = sheet_bytes(sheet)?;
    reading::file(Subject::System, written.len()).map_err(|refusal| refusal.report(&shown(sheet)))?;
    let bytes = card_bytes(card)?;
    let system = system_of(sheet, &written)?;
    let side = side_of(&system, sheet, digits)?;
    let certificate = reading::certificate(&bytes, &system).map_err(|refusal| refusal.report(&shown(card)))?;
    let notation = Notation { modulus: system.modulus, signed };
    let text = notation.certificate(&certificate, (system.sides.len() > 1).then_some(side));
    Ok(match check::first_fault(&certificate, &system, side, notation) {
        None => Answer { output: (text + &receiver::line(&certificate) + ACCEPTED).into(), ..Answer::default() },
        Some(mut fault) => {
            fault.lines.push(UNPROVED.to_string());
            Answer { output: text.into(), error: refusal::report(fault.number, fault.place, &shown(card), &fault.lines) }
        }
    })
}
