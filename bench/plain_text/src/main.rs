//! plain_text FILE [--repeat N]
//!
//! Reads a WESL text, N times (once), and prints how many nodes with a place it has, or `LINE:COLUMN: fault` with status 1.
use plain_text::lexer::{Fault, Read};
use plain_text::parser::parse;
use std::process::ExitCode;

/// The file and how often it is read.
fn words_of_command_line() -> Option<(String, usize)> {
    let words: Vec<String> = std::env::args().skip(1).collect();
    match &words[..] {
        [file] => Some((file.clone(), 1)),
        [file, flag, count] if flag == "--repeat" => Some((file.clone(), count.parse().ok().filter(|&it| it > 0)?)),
        _ => None,
    }
}

/// The line and the column of a byte, both from 1; columns are characters.
fn line_and_column(text: &str, place: usize) -> (usize, usize) {
    let (mut line, mut column, mut last) = (1, 1, ' ');
    for it in text[..place].chars() {
        let is_second_half = last == '\r' && it == '\n';
        if matches!(it, '\n'..='\r' | '\u{85}' | '\u{2028}' | '\u{2029}') {
            line += usize::from(!is_second_half);
            column = 1;
        } else {
            column += 1;
        }
        last = it;
    }
    (line, column)
}

/// How many nodes the text has; it is read so often.
fn count_of_nodes(text: &str, times: usize) -> Read<usize> {
    let mut count = 0;
    for _ in 0..times {
        count = parse(text)?.1;
    }
    Ok(count)
}

fn main() -> ExitCode {
    let Some((file, times)) = words_of_command_line() else {
        eprintln!("usage: plain_text FILE [--repeat N]");
        return ExitCode::from(2);
    };
    let text = match std::fs::read_to_string(&file) {
        Ok(text) => text,
        Err(error) => {
            println!("{file}: {error}");
            return ExitCode::FAILURE;
        }
    };
    match count_of_nodes(&text, times) {
        Ok(count) => println!("{count}"),
        Err(fault) => {
            let Fault { place, message } = *fault;
            let (line, column) = line_and_column(&text, place as usize);
            println!("{line}:{column}: {message}");
            return ExitCode::FAILURE;
        }
    }
    ExitCode::SUCCESS
}
