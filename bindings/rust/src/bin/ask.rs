//! Puts questions to a map: one a line from standard input or a file, one answer a line on
//! standard output (`runcedau::console`).
use runcedau::console::Console;
use std::ffi::OsString;
use std::fs::File;
use std::io::{self, BufRead, BufReader, ErrorKind, IsTerminal, Write};
use std::process::ExitCode;

const USAGE: &str = "\
usage: ask [FILE]

Answers questions about a floor map, one a line.
The question 'help' lists all of them. On a terminal there is a prompt, and Ctrl-D ends.

  FILE       the questions; without it they come from standard input

exit status: 0, 1 if the questions cannot be read, 2 for wrong use

example, in the repository's folder:
  cargo run --release --offline --manifest-path bindings/rust/Cargo.toml \
--bin ask -- bindings/session.txt";

/// Why it ended before the last question.
enum Stop {
    Unread(io::Error),
    Unwritten(io::Error),
}

/// The line without its end.
fn question(line: &[u8]) -> &[u8] {
    let line = line.strip_suffix(b"\n").unwrap_or(line);
    let end = line.iter().rposition(|byte| *byte != b'\r');
    &line[..end.map_or(0, |last| last + 1)]
}

fn say(output: &mut impl Write, words: &[u8]) -> Result<(), Stop> {
    let written = output.write_all(words).and_then(|()| output.flush());
    written.map_err(Stop::Unwritten)
}

/// Answers every line, each as soon as it is read.
fn answer_all(mut input: impl BufRead, mut output: impl Write, prompt: &[u8]) -> Result<(), Stop> {
    let (mut console, mut line) = (Console::default(), Vec::new());
    loop {
        say(&mut output, prompt)?;
        line.clear();
        if input.read_until(b'\n', &mut line).map_err(Stop::Unread)? == 0 {
            return Ok(());
        }
        if let Some(answer) = console.answer(question(&line)) {
            say(&mut output, &[&answer, &b"\n"[..]].concat())?;
        }
    }
}

/// From standard input; a person is prompted, and leaves with a line of their own.
fn converse() -> Result<(), Stop> {
    let (input, mut output) = (io::stdin().lock(), io::stdout().lock());
    let person = input.is_terminal() && output.is_terminal();
    if !person {
        return answer_all(input, output, b"");
    }
    say(&mut output, b"'help' lists the questions, Ctrl-D ends\n")?;
    answer_all(input, &mut output, b"> ")?;
    say(&mut output, b"\n")
}

fn answer_file(name: &OsString) -> Result<(), Stop> {
    let file = File::open(name).map_err(Stop::Unread)?;
    answer_all(BufReader::new(file), io::stdout().lock(), b"")
}

/// Nobody reads the answers any more: no failure.
fn ended(result: Result<(), Stop>, source: &str) -> ExitCode {
    match result {
        Ok(()) => ExitCode::SUCCESS,
        Err(Stop::Unwritten(why)) if why.kind() == ErrorKind::BrokenPipe => ExitCode::SUCCESS,
        Err(Stop::Unread(why)) => failed(&format!("cannot read {source}: {why}"), 1),
        Err(Stop::Unwritten(why)) => failed(&format!("cannot write the answers: {why}"), 1),
    }
}

fn failed(words: &str, status: u8) -> ExitCode {
    eprintln!("ask: {words}");
    ExitCode::from(status)
}

fn main() -> ExitCode {
    let words: Vec<OsString> = std::env::args_os().skip(1).collect();
    match &words[..] {
        [] => ended(converse(), "standard input"),
        [word] if word == "--help" || word == "-h" => {
            let usage = format!("{USAGE}\n");
            ended(say(&mut io::stdout(), usage.as_bytes()), "nothing")
        }
        [word] if word.as_encoded_bytes().starts_with(b"-") => {
            let word = word.to_string_lossy();
            failed(&format!("there is no option {word}\n\n{USAGE}"), 2)
        }
        [file] => ended(answer_file(file), &file.to_string_lossy()),
        _ => failed(&format!("one file is the most\n\n{USAGE}"), 2),
    }
}
