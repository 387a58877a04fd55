//! Solves the system in a file for each of its right sides, checks the certificates, says which are solutions, and prints the report,
//! which is on the first: solve SHEET [CARD...]. With more names the certificates are written there, that of the first right side first.
//! Status 1: the system is refused; 2: a file or the command is at fault.

use std::env;
use std::ffi::{OsStr, OsString};
use std::fs;
use std::io;
use std::io::Write;
use std::process::exit;

/// The calls of include/yezsdolak.h, on slices.
mod yezsdolak {
    pub const CERTIFICATE_BYTES: usize = 8792;
    pub const REPORT_BYTES: usize = 1024;

    mod c {
        extern "C" {
            pub fn yezsdolak_shape(system: *const u8, system_bytes: usize) -> u64;
            pub fn yezsdolak_solve(system: *const u8, system_bytes: usize, side: u64, certificate: *mut u8, lent_bytes: usize) -> u64;
            pub fn yezsdolak_check(system: *const u8, system_bytes: usize, side: u64, certificate: *const u8, bytes: usize) -> u64;
            pub fn yezsdolak_kind(system: *const u8, system_bytes: usize, certificate: *const u8, bytes: usize) -> u64;
            pub fn yezsdolak_report(system: *const u8, system_bytes: usize, text: *mut u8, lent_bytes: usize) -> u64;
        }
    }

    /// A number of document 01's table, and its place.
    pub struct Refusal {
        pub number: u64,
        pub place: u64,
    }

    fn parts(result: u64) -> Result<usize, Refusal> {
        match result % 64 {
            0 => Ok((result / 64) as usize),
            number => Err(Refusal { number, place: result / 64 }),
        }
    }

    /// How many right sides the system has: their numbers are those below it.
    pub fn sides(system: &[u8]) -> Result<u64, Refusal> {
        // SAFETY: as in `solve`; nothing is written.
        let result = unsafe { c::yezsdolak_shape(system.as_ptr(), system.len()) };
        parts(result).map(|shape| (shape >> 24) as u64 % 16 + 1)
    }

    /// The bytes of a right side's certificate, written over the first of those lent.
    pub fn solve<'a>(system: &[u8], side: u64, lent: &'a mut [u8]) -> Result<&'a [u8], Refusal> {
        // SAFETY: the pointers and counts are those of slices, and a slice that is lent to be written overlaps no other.
        let result = unsafe { c::yezsdolak_solve(system.as_ptr(), system.len(), side, lent.as_mut_ptr(), lent.len()) };
        parts(result).map(|count| &lent[..count])
    }

    /// Whether the certificate is right for that right side.
    pub fn check(system: &[u8], side: u64, certificate: &[u8]) -> Result<(), Refusal> {
        // SAFETY: as in `solve`; nothing is written.
        let result = unsafe { c::yezsdolak_check(system.as_ptr(), system.len(), side, certificate.as_ptr(), certificate.len()) };
        parts(result).map(|_| ())
    }

    /// Whether the certificate is that of a solution, and not of an absence.
    pub fn is_solution(system: &[u8], certificate: &[u8]) -> Result<bool, Refusal> {
        // SAFETY: as in `solve`; nothing is written.
        let result = unsafe { c::yezsdolak_kind(system.as_ptr(), system.len(), certificate.as_ptr(), certificate.len()) };
        parts(result).map(|kind| kind != 2)
    }

    /// The report on the first right side, written over the first of the lent bytes.
    pub fn report<'a>(system: &[u8], lent: &'a mut [u8; REPORT_BYTES]) -> &'a [u8] {
        // SAFETY: as in `solve`.
        let result = unsafe { c::yezsdolak_report(system.as_ptr(), system.len(), lent.as_mut_ptr(), lent.len()) };
        &lent[..(result / 64) as usize]
    }
}

fn fail(status: i32, message: String) -> ! {
    eprintln!("{message}");
    exit(status)
}

/// A file's name for messages, on one line.
fn shown(name: &OsStr) -> String {
    name.to_string_lossy().replace(char::is_control, "?")
}

fn refused(what: &str, refusal: yezsdolak::Refusal) -> ! {
    fail(1, format!("{what}: refused {} at {}", refusal.number, refusal.place))
}

fn print(bytes: &[u8]) {
    let mut output = io::stdout();
    let printed = output.write_all(bytes).and_then(|_| output.flush());
    printed.unwrap_or_else(|error| fail(2, format!("standard output: {error}")));
}

fn main() {
    let names: Vec<OsString> = env::args_os().skip(1).collect();
    let Some(sheet) = names.first() else {
        fail(2, "usage: solve SHEET [CARD...]".to_string());
    };
    let system = fs::read(sheet).unwrap_or_else(|error| fail(2, format!("{}: {error}", shown(sheet))));
    let sides = yezsdolak::sides(&system).unwrap_or_else(|refusal| refused(&shown(sheet), refusal));
    if names.len() - 1 > sides as usize {
        fail(2, format!("solve: {} cards for {sides} right sides", names.len() - 1));
    }

    for side in 0..sides {
        let mut lent = [0; yezsdolak::CERTIFICATE_BYTES];
        let certificate = yezsdolak::solve(&system, side, &mut lent).unwrap_or_else(|refusal| refused(&shown(sheet), refusal));

        // It is proved that this accepts; a program that was given a certificate by others would ask the same.
        yezsdolak::check(&system, side, certificate).unwrap_or_else(|refusal| refused("certificate", refusal));

        let solution = yezsdolak::is_solution(&system, certificate).unwrap_or_else(|refusal| refused("certificate", refusal));
        print(format!("right side {side}: {}\n", if solution { "solution" } else { "none" }).as_bytes());
        if let Some(name) = names.get(1 + side as usize) {
            fs::write(name, certificate).unwrap_or_else(|error| fail(2, format!("{}: {error}", shown(name))));
        }
    }
    if sides > 1 {
        print(b"report on right side 0:\n");
    }
    print(yezsdolak::report(&system, &mut [0; yezsdolak::REPORT_BYTES]));
}
