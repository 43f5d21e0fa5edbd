//! What the programs share: usage, arguments, files that cannot be read or written, and how far a long run is.
use std::fmt::{self, Display, Formatter};
use std::io::{stderr, stdout, Error, IsTerminal, Write};
use std::path::Path;
use std::process::ExitCode;
use std::time::{Duration, Instant};

/// What a person is told about a program.
pub struct Program<const N: usize> {
    pub name: &'static str,
    /// The folder of its package.
    pub package: &'static str,
    /// A sentence, or some, each on a line.
    pub does: &'static str,
    /// Each with what it is.
    pub arguments: [(&'static str, &'static str); N],
    pub example: [&'static str; N],
}

/// Why a program ends without having done its work.
#[derive(Debug)]
pub enum Failure {
    /// An argument is wrong: the usage is told, and the status is 2.
    Call(String),
    /// Anything else: the status is 1.
    Work(String),
}

impl<const N: usize> Display for Program<N> {
    fn fmt(&self, f: &mut Formatter) -> fmt::Result {
        let names = self.arguments.map(|(name, _)| format!(" {name}"));
        writeln!(
            f,
            "usage: {}{}\n\n{}\n",
            self.name,
            names.concat(),
            self.does
        )?;
        for (name, meaning) in self.arguments {
            writeln!(f, "  {name:10} {meaning}")?;
        }
        let command = format!(
            "cargo run --release --offline --manifest-path {}/Cargo.toml --bin {}",
            self.package, self.name
        );
        let arguments = self.example.map(|word| format!(" {word}")).concat();
        let parted = if N == 0 { "" } else { " --" };
        let space = if N == 0 { "" } else { "\n" };
        write!(
            f,
            "{space}example, in the repository's folder:\n  {command}{parted}{arguments}"
        )
    }
}

impl<const N: usize> Program<N> {
    /// Does the work with the arguments that the program was given; `--help` tells the usage instead.
    pub fn run(&self, work: impl FnOnce([String; N]) -> Result<(), Failure>) -> ExitCode {
        let words = std::env::args_os().skip(1);
        let words: Vec<String> = words.map(|word| word.to_string_lossy().into()).collect();
        let ended = if words.iter().any(|word| word == "--help" || word == "-h") {
            say(self)
        } else {
            self.all(words).and_then(work)
        };
        match ended {
            Ok(()) => ExitCode::SUCCESS,
            Err(Failure::Call(why)) => {
                note(format!("{}: {why}\n\n{self}", self.name));
                ExitCode::from(2)
            }
            Err(Failure::Work(why)) => {
                note(format!("{}: {why}", self.name));
                ExitCode::FAILURE
            }
        }
    }

    /// As many as there should be.
    fn all(&self, words: Vec<String>) -> Result<[String; N], Failure> {
        let several = |n: usize| match n {
            0 => "no argument".to_string(),
            1 => "1 argument".to_string(),
            n => format!("{n} arguments"),
        };
        words.try_into().map_err(|words: Vec<String>| {
            let (given, wanted) = (several(words.len()), several(N));
            Failure::Call(format!("{given} given, {wanted} wanted"))
        })
    }
}

/// The whole number that an argument is.
pub fn number(name: &str, word: &str, least: u64) -> Result<u64, Failure> {
    match word.parse() {
        Ok(number) if number >= least => Ok(number),
        _ => Err(Failure::Call(format!(
            "{name} is '{word}', and has to be a whole number from {least} to {}",
            u64::MAX
        ))),
    }
}

/// A line on standard output, at once.
pub fn say(line: impl Display) -> Result<(), Failure> {
    let mut out = stdout().lock();
    let written = writeln!(out, "{line}").and_then(|()| out.flush());
    written.map_err(|error| cannot("standard output", "be written", error))
}

/// A line on standard error, if that can be written.
pub fn note(line: impl Display) {
    let _ = writeln!(stderr().lock(), "{line}");
}

/// What could not be done with a file or a program, and why.
pub fn cannot(name: impl Display, what: &str, error: Error) -> Failure {
    Failure::Work(format!("{name} cannot {what}: {error}"))
}

/// Fails where that is no folder, before something is made for it.
pub fn is_folder(path: &str) -> Result<(), Failure> {
    match std::fs::metadata(path) {
        Ok(found) if found.is_dir() => Ok(()),
        Ok(_) => Err(Failure::Work(format!("{path} is no folder"))),
        Err(error) => Err(cannot(path, "be read", error)),
    }
}

pub fn read(path: impl AsRef<Path>) -> Result<Vec<u8>, Failure> {
    let path = path.as_ref();
    std::fs::read(path).map_err(|error| cannot(path.display(), "be read", error))
}

pub fn write(path: impl AsRef<Path>, bytes: impl AsRef<[u8]>) -> Result<(), Failure> {
    let path = path.as_ref();
    std::fs::write(path, bytes).map_err(|error| cannot(path.display(), "be written", error))
}

/// How far a long run is, on standard error: on a terminal one line, written again every second; else a line every ten seconds.
pub struct Progress {
    things: &'static str,
    of: u64,
    limit: Duration,
    done: u64,
    /// How many are done when the clock is looked at next: a look takes as long as a short step.
    look: u64,
    start: Instant,
    told: Instant,
    terminal: bool,
    shown: bool,
}

impl Progress {
    pub fn new(things: &'static str, of: u64) -> Self {
        Progress {
            things,
            of,
            limit: Duration::MAX,
            done: 0,
            look: 1,
            start: Instant::now(),
            told: Instant::now(),
            terminal: stderr().is_terminal(),
            shown: false,
        }
    }

    /// The run ends after so long, if not before.
    pub fn within(mut self, limit: Duration) -> Self {
        self.limit = limit;
        self
    }

    pub fn done(&self) -> u64 {
        self.done
    }

    /// All are done, or the time is over.
    pub fn is_over(&self) -> bool {
        self.done >= self.of || self.start.elapsed() >= self.limit
    }

    /// One more is done.
    pub fn step(&mut self) {
        self.done += 1;
        if self.done < self.look {
            return;
        }
        let rate = self.done as f64 / self.start.elapsed().as_secs_f64();
        // ten looks a second, and soon again while the rate is not known well
        self.look = self.done + (rate as u64 / 10).clamp(1, self.done);
        let pace = Duration::from_secs(if self.terminal { 1 } else { 10 });
        if self.told.elapsed() >= pace {
            self.told = Instant::now();
            self.tell();
        }
    }

    fn tell(&mut self) {
        let line = self.line(self.start.elapsed());
        if self.terminal {
            let _ = write!(stderr().lock(), "\r{line}\x1b[K");
            self.shown = true;
        } else {
            note(line);
        }
    }

    fn line(&self, elapsed: Duration) -> String {
        let Progress {
            things,
            of,
            done,
            limit,
            ..
        } = self;
        let rate = *done as f64 / elapsed.as_secs_f64();
        let decimals = if rate < 10.0 { 1 } else { 0 };
        let left = limit.saturating_sub(elapsed).as_secs_f64();
        let rest = (of.saturating_sub(*done) as f64 / rate).min(left);
        let percent = (100.0 * *done as f64 / *of as f64) as u64;
        format!(
            "{done} of {of} {things} ({percent} %), {rate:.decimals$} a second, {rest:.0} s to go"
        )
    }

    /// The result of a comparison, which fails where something differs.
    pub fn end(mut self, result: impl Display, different: u64) -> Result<(), Failure> {
        self.clear();
        say(result)?;
        match different {
            0 => Ok(()),
            _ => Err(Failure::Work("the two sides differ".into())),
        }
    }

    /// Takes the line off the terminal, for something else to be written there.
    pub fn clear(&mut self) {
        if self.shown {
            let _ = write!(stderr().lock(), "\r\x1b[K");
            self.shown = false;
        }
    }
}

impl Drop for Progress {
    fn drop(&mut self) {
        self.clear();
    }
}

#[cfg(test)]
mod tests {
    use super::*;

    fn line(done: u64, of: u64, limit: u64) -> String {
        let mut progress = Progress::new("files", of).within(Duration::from_secs(limit));
        progress.done = done;
        progress.line(Duration::from_secs(10))
    }

    #[test]
    fn a_line_says_how_many_of_how_many_and_how_fast() {
        assert_eq!(
            line(30, 120, 900),
            "30 of 120 files (25 %), 3.0 a second, 30 s to go"
        );
        assert_eq!(
            line(8000, 100_000, 12),
            "8000 of 100000 files (8 %), 800 a second, 2 s to go"
        );
    }

    #[test]
    fn a_run_is_over_with_the_last_or_with_the_time() {
        let mut progress = Progress::new("files", 2);
        progress.step();
        assert!(!progress.is_over());
        progress.step();
        assert!(progress.is_over());
        assert!(Progress::new("files", 2).within(Duration::ZERO).is_over());
    }

    #[test]
    fn only_whole_numbers_from_the_least_on_are_taken() {
        assert_eq!(number("FILES", "7", 7).ok(), Some(7));
        for word in ["6", "", "-7", "7.0", "x", "18446744073709551616"] {
            assert!(matches!(number("FILES", word, 7), Err(Failure::Call(_))));
        }
    }
}
