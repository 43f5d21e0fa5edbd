//! The console: one question a line, one answer a line.
//!
//! Words are parted by spaces. A float is a decimal number, or the 16 hexadecimal digits of its
//! bits; a cell is two whole numbers. A line that is empty or begins with `#` has no answer, one
//! that cannot be read is answered with `? ` and the line. `help` answers all questions, as lines.
mod answers;
mod help;
mod questions;
mod words;

use crate::{Map, Refusal};
use words::Words;

/// What there is after a refused opening, and before any: every question about the map answers 1.
const NO_MAP: Refusal = Refusal::CellSize;

/// The questions of one kind: of a name and its words, the answer.
type Kind = fn(&mut Console, &str, &mut Words) -> Option<String>;

const KINDS: [Kind; 5] = [
    questions::changed,
    questions::listed,
    questions::about_a_cell,
    questions::about_a_place,
    questions::of_no_map,
];

/// Answers questions, and has the map that they are about.
///
/// ```
/// use runcedau::console::Console;
///
/// let mut console = Console::default();
/// assert_eq!(console.answer(b"open 256 128").unwrap(), b"open 0");
/// console.answer(b"batch 1 0 0 1");
/// assert_eq!(console.answer(b"visibility 0 5").unwrap(), b"visibility 0 2 -1,1 1,1");
/// assert_eq!(console.answer(b"what is this").unwrap(), b"? what is this");
/// ```
#[derive(Debug, Default)]
pub struct Console {
    map: Option<Map>,
}

impl Console {
    fn map(&mut self) -> Result<&mut Map, Refusal> {
        self.map.as_mut().ok_or(NO_MAP)
    }

    fn question(&mut self, line: &str) -> Option<String> {
        let mut words = Words::of(line);
        let name = words.next()?;
        if name == "help" {
            return words.end().map(|()| help::help());
        }
        let ask = |kind: &Kind| {
            let mut words = words.clone();
            let answer = kind(self, name, &mut words)?;
            words.end().map(|()| format!("{name} {answer}"))
        };
        KINDS.iter().find_map(ask)
    }

    /// The answer to a line, without its end; none to an empty one and to a remark. A line that
    /// cannot be read leaves the map as it was.
    pub fn answer(&mut self, line: &[u8]) -> Option<Vec<u8>> {
        if line.starts_with(b"#") || line.iter().all(|byte| *byte == b' ') {
            return None;
        }
        let answer = std::str::from_utf8(line)
            .ok()
            .and_then(|line| self.question(line));
        Some(answer.map_or_else(|| [b"? ", line].concat(), String::into_bytes))
    }
}
