//! The program `plan`: its arguments, its files and its exit status.
use plan::arguments::{self, Colour, Wish};
use plan::diff::Difference;
use plan::floor::Floor;
use plan::{diff_svg, diff_text, drawing, read, svg, text};
use runcedau::Map;
use std::io::{ErrorKind, IsTerminal, Write};
use std::process::ExitCode;

const USAGE: &str = include_str!("usage.txt");

fn main() -> ExitCode {
    let arguments: Vec<String> = std::env::args_os()
        .skip(1)
        .map(|one| one.to_string_lossy().into_owned())
        .collect();
    let done = match arguments::read(&arguments) {
        Err(wrong) => {
            complain(&format!("{wrong}\n\n{}", USAGE.trim_end()));
            return ExitCode::from(2);
        }
        Ok(Wish::Help) => print(USAGE.as_bytes()),
        Ok(Wish::Plan { file, svg }) => plan(&file, svg),
        Ok(Wish::Diff {
            before,
            after,
            svg,
            colour,
        }) => diff(&before, &after, svg, colour),
        Ok(Wish::Make {
            drawing,
            size,
            radius,
            to,
        }) => make_map(&drawing, size, radius, to.as_deref()),
    };
    match done {
        Ok(()) => ExitCode::SUCCESS,
        Err(why) => {
            complain(&why);
            ExitCode::FAILURE
        }
    }
}

/// If standard error cannot be written, the exit status still tells.
fn complain(why: &str) {
    let _ = writeln!(std::io::stderr(), "plan: {why}");
}

/// A reader that has seen enough is no error.
fn print(bytes: &[u8]) -> Result<(), String> {
    let mut out = std::io::stdout().lock();
    match out.write_all(bytes).and_then(|()| out.flush()) {
        Err(error) if error.kind() != ErrorKind::BrokenPipe => {
            Err(format!("standard output cannot be written: {error}"))
        }
        _ => Ok(()),
    }
}

fn plan(file: &str, as_svg: bool) -> Result<(), String> {
    let floor = Floor::of(&read::map(file)?);
    let drawn = if as_svg {
        svg::plan(&floor)
    } else {
        text::plan(&floor)
    };
    print(drawn.as_bytes())
}

fn diff(before: &str, after: &str, as_svg: bool, colour: Colour) -> Result<(), String> {
    let (a, b) = (read::map(before)?, read::map(after)?);
    let difference = Difference::of(Floor::of(&a), Floor::of(&b))?;
    let drawn = if as_svg {
        diff_svg::draw(&difference)
    } else {
        diff_text::draw(&difference, coloured(colour))
    };
    print(drawn.as_bytes())
}

fn coloured(colour: Colour) -> bool {
    let plain = std::env::var_os("NO_COLOR").is_some_and(|value| !value.is_empty());
    match colour {
        Colour::Always => true,
        Colour::Never => false,
        Colour::Auto => !plain && std::io::stdout().is_terminal(),
    }
}

fn make_map(
    name: &str,
    size: Option<f64>,
    radius: Option<f64>,
    to: Option<&str>,
) -> Result<(), String> {
    let told = read::told(name);
    let made = drawing::read(&read::bytes(name)?).map_err(|wrong| format!("{told}, {wrong}"))?;
    let lacking = |what: &str, option: &str| {
        format!("{told} has no line '{what} N': add one, or give {option} N")
    };
    let size = size
        .or(made.size)
        .ok_or_else(|| lacking("cell size", "--size"))?;
    let radius = radius
        .or(made.radius)
        .ok_or_else(|| lacking("radius", "--radius"))?;
    let map = Map::of_cells(size, radius, &made.cells);
    let file = map.and_then(|map| map.write());
    let file = file.map_err(|refusal| format!("{told} is refused: {refusal}"))?;
    match to {
        Some(to) => {
            std::fs::write(to, file).map_err(|error| format!("{to} cannot be written: {error}"))
        }
        None if std::io::stdout().is_terminal() => {
            Err("a map file is no text for a terminal: give -o FILE, or send it to a file".into())
        }
        None => print(&file),
    }
}
