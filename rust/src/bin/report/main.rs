//! The page of a round, on standard output: `report [--lines] [FILE]`, where no file is standard input. With `--lines` it prints what the program `round`
//! does, from the engine's single calls.

use std::io::{self, Read, Write};
use std::path::Path;
use std::process::ExitCode;

mod drawing;
mod escape;
mod fields;
mod page;
mod round;
mod table;
#[cfg(test)]
mod tests;
mod words;

const USAGE: &str = "usage: report [--lines] [FILE]";

struct Wanted {
    lines: bool,
    file: Option<std::ffi::OsString>,
}

fn wanted() -> Option<Wanted> {
    let mut wanted = Wanted { lines: false, file: None };
    for argument in std::env::args_os().skip(1) {
        if argument == "--lines" {
            wanted.lines = true;
        } else if wanted.file.is_none() && !argument.to_string_lossy().starts_with('-') {
            wanted.file = Some(argument);
        } else {
            return None;
        }
    }
    Some(wanted)
}

/// The name of the round and its bytes.
fn input(file: Option<&Path>) -> io::Result<(String, Vec<u8>)> {
    let Some(path) = file else {
        let mut bytes = Vec::new();
        io::stdin().lock().read_to_end(&mut bytes)?;
        return Ok((String::new(), bytes));
    };
    let name = path.file_name().unwrap_or_default().to_string_lossy().into_owned();
    Ok((name, std::fs::read(path)?))
}

/// The lines of `round`, one for each line of the input.
fn write_lines(bytes: &[u8], out: &mut impl Write) -> io::Result<()> {
    for line in round::lines(bytes) {
        out.write_all(&words::round_line(&line))?;
        out.write_all(b"\n")?;
    }
    out.flush()
}

fn write_page(name: &str, bytes: &[u8], out: &mut impl Write) -> io::Result<()> {
    let lines: Vec<round::Line> = round::lines(bytes).collect();
    out.write_all(page::page(name, &lines).as_bytes())?;
    out.flush()
}

fn report(wanted: &Wanted) -> io::Result<()> {
    let (name, bytes) = input(wanted.file.as_deref().map(Path::new))?;
    let mut out = io::BufWriter::new(io::stdout().lock());
    if wanted.lines {
        write_lines(&bytes, &mut out)
    } else {
        write_page(&name, &bytes, &mut out)
    }
}

fn main() -> ExitCode {
    let Some(wanted) = wanted() else {
        eprintln!("{USAGE}");
        return ExitCode::from(2);
    };
    match report(&wanted) {
        Ok(()) => ExitCode::SUCCESS,
        Err(error) => {
            eprintln!("report: {error}");
            ExitCode::FAILURE
        }
    }
}
