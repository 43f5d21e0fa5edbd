//! What `help` answers.
use crate::Refusal;

/// The questions with their words, a line each.
const QUESTIONS: &str = "\
open SIZE RADIUS                  opens a map on which every cell is free
read HEX                          reads a map file: its bytes, - for none
write                             the bytes of a map file of this map
batch COUNT X Y 0|1 ..            makes COUNT cells, ascending, free (0) or occupied (1)
radius RADIUS                     sets the radius of a cart
cells                             the occupied cells
corners                           the cells that have a corner, =status
points                            the points, =status/blocker
pairs                             the pairs of points, /blocker
openpairs                         the pairs that nothing blocks, nor either of their points
occupied X Y                      whether a cell is occupied
visibility X Y                    the points in sight of a cell
neighbours X Y                    the cells beside a cell that a cart can reach
point PX PY                       the occupied cell that place P is in
square PX PY WIDTH                the first occupied cell that a square about P takes
circle PX PY RADIUS               the first occupied cell that a circle about P takes
sweep PX PY QX QY WIDTH           the first occupied cell on the way from P to Q
floor F                           the greatest whole number that is not above F
ceil F                            the least whole number that is not below F
abs F                             F without its sign
sqrt F                            the square root of F
shift RADIUS SIZE                 how many cells out from its corner a point lies
cellof SIZE PX PY                 the cell that place P is in
centre SIZE X Y                   the middle of a cell
bottomleft SIZE X Y               the corner of a cell with the least x and y
distance PX PY QX QY RX RY        how far R is from the line between P and Q
vertical PX PY QX QY F            where the line between P and Q meets x = F
horizontal PX PY QX QY F          where the line between P and Q meets y = F
near SIZE RADIUS PX PY QX QY X Y  whether the line between P and Q passes near a cell
help                              these lines";

const NUMBERS: &str = "\
X, Y and COUNT are whole numbers. HEX has two hexadecimal digits a byte. The other numbers are
decimal, such as 256, 0.5 or -1e3, or the 16 hexadecimal digits of a float's bits; a float is
answered as its bits. A question about a map answers 0 and what was asked for, or why it was
refused; before a map is opened that is 1.";

/// All of it, without the end of the last line.
pub fn help() -> String {
    let why = |refusal: &Refusal| format!("{:>2} {refusal}", refusal.number());
    let refusals: Vec<String> = Refusal::NAMED.iter().map(why).collect();
    [QUESTIONS, "", NUMBERS, &refusals.join("\n")].join("\n")
}

#[cfg(test)]
mod tests {
    use super::*;
    use crate::console::Console;

    /// A word of each kind.
    fn sample(word: &str) -> &str {
        match word {
            "X" | "Y" | "0|1" => "1",
            "COUNT" => "2",
            ".." => "1 2 0",
            "HEX" => "-",
            _ if word.bytes().all(|byte| byte.is_ascii_uppercase()) => "256",
            _ => word,
        }
    }

    /// As the help has it, and not with a word more.
    #[test]
    fn every_question_is_read() {
        for line in QUESTIONS.lines() {
            let (question, says) = line.split_at(34);
            assert!(question.ends_with(' ') && !says.starts_with(' '), "{line}");
            let words: Vec<&str> = question.split_whitespace().map(sample).collect();
            let mut console = Console::default();
            console.answer(b"open 256 128");
            let (asked, more) = (words.join(" "), format!("{} 1", words.join(" ")));
            let answer = console.answer(asked.as_bytes()).unwrap();
            assert!(!answer.starts_with(b"?"), "{asked}");
            let refused = [b"? ", more.as_bytes()].concat();
            assert_eq!(console.answer(more.as_bytes()), Some(refused));
        }
    }
}
