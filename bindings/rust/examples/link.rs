//! Links the bundle on standard input, and writes its line, as the program wesl-link does: status 0 where a unit was
//! linked, 1 where the line tells a fault, 2 where a read or a write failed.
use std::io::{self, Read, Write};
use std::process::ExitCode;

fn run() -> io::Result<bool> {
    let mut bundle = Vec::new();
    io::stdin().read_to_end(&mut bundle)?;
    let line = baqrizen::link_line(&bundle);
    io::stdout().write_all(line.text.as_bytes())?;
    Ok(line.is_answer)
}

fn main() -> ExitCode {
    match run() {
        Ok(true) => ExitCode::SUCCESS,
        Ok(false) => ExitCode::from(1),
        Err(_) => ExitCode::from(2),
    }
}
