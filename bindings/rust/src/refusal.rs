//! Why a call, or a map file, was refused (the numbers of RULES 4.1).
use std::fmt;

/// Why a call was refused. A refused call has altered nothing.
///
/// `Display` says the reason in words, [`number`](Refusal::number) is the number of RULES 4.1.
///
/// ```
/// use runcedau::{Map, Refusal};
///
/// let refusal = Map::new(0.0, 128.0).unwrap_err();
/// assert_eq!(refusal, Refusal::CellSize);
/// assert_eq!(refusal.number(), 1);
/// assert_eq!(
///     refusal.to_string(),
///     "the cell size is not a number from 1/1,024 to 65,536"
/// );
/// ```
#[derive(Clone, Copy, Debug, PartialEq, Eq, PartialOrd, Ord, Hash)]
#[non_exhaustive]
pub enum Refusal {
    /// 1: the cell size is not finite, or not from 1/1,024 to 65,536.
    CellSize,
    /// 2: the radius is not finite, below 0, or more than 63.5 times the cell size.
    Radius,
    /// 3: the batch has more than 256 entries.
    BatchLength,
    /// 4: the cells of the batch do not ascend by x, then y; so also where one is named twice.
    BatchOrder,
    /// 5: a coordinate lies beyond 1,048,576, or in a question beyond 1,048,640.
    Coordinate,
    /// 6: more than 1,024 cells would be occupied.
    TooManyCells,
    /// 7: there would be more than 64 points.
    TooManyPoints,
    /// 8: a number of the question is not finite or beyond 2^40, or an extent is below 0.
    QueryNumber,
    /// 9: a buffer is shorter than it has to be. [`crate::Map`] has buffers that are long enough;
    /// [`crate::ffi`] may meet this.
    ShortBuffer,
    /// 10: the map file is malformed: bytes are missing, wrong or left over.
    MalformedFile,
    /// A number that has no meaning here: this crate and the library do not belong together.
    Unknown(u8),
}

impl Refusal {
    pub(crate) const NAMED: [Refusal; 10] = [
        Refusal::CellSize,
        Refusal::Radius,
        Refusal::BatchLength,
        Refusal::BatchOrder,
        Refusal::Coordinate,
        Refusal::TooManyCells,
        Refusal::TooManyPoints,
        Refusal::QueryNumber,
        Refusal::ShortBuffer,
        Refusal::MalformedFile,
    ];

    /// Nothing for 0 alone, which is no refusal. No call on a map answers 10.
    pub(crate) fn check(number: u8) -> Result<(), Refusal> {
        if number == 0 {
            return Ok(());
        }
        let mut named = Refusal::NAMED.into_iter();
        Err(named
            .find(|one| one.number() == number && *one != Refusal::MalformedFile)
            .unwrap_or(Refusal::Unknown(number)))
    }

    /// The same where a map file was read, which 10 is about.
    pub(crate) fn check_file(number: u8) -> Result<(), Refusal> {
        if number == Refusal::MalformedFile.number() {
            return Err(Refusal::MalformedFile);
        }
        Refusal::check(number)
    }

    /// The number by which the rules, the C header and the programs name this refusal.
    pub fn number(self) -> u8 {
        match self {
            Refusal::CellSize => 1,
            Refusal::Radius => 2,
            Refusal::BatchLength => 3,
            Refusal::BatchOrder => 4,
            Refusal::Coordinate => 5,
            Refusal::TooManyCells => 6,
            Refusal::TooManyPoints => 7,
            Refusal::QueryNumber => 8,
            Refusal::ShortBuffer => 9,
            Refusal::MalformedFile => 10,
            Refusal::Unknown(number) => number,
        }
    }
}

/// Word for word what `runcedau_why` of the C header says.
impl fmt::Display for Refusal {
    fn fmt(&self, f: &mut fmt::Formatter) -> fmt::Result {
        f.write_str(match self {
            Refusal::CellSize => "the cell size is not a number from 1/1,024 to 65,536",
            Refusal::Radius => "the radius is not a number from 0 to 63.5 times the cell size",
            Refusal::BatchLength => "the batch has more than 256 entries",
            Refusal::BatchOrder => "the batch's cells do not ascend by x, then y",
            Refusal::Coordinate => {
                "a cell is too far out: its x and y may be from -1,048,576 to 1,048,576 \
                 (in a question 64 more)"
            }
            Refusal::TooManyCells => "more than 1,024 cells would be occupied",
            Refusal::TooManyPoints => "there would be more than 64 points",
            Refusal::QueryNumber => {
                "a number of the question is not finite or out of bounds, \
                 or there is no such shape"
            }
            Refusal::ShortBuffer => "a buffer is shorter than it has to be",
            Refusal::MalformedFile => {
                "the map file is malformed: bytes are missing, wrong or left over"
            }
            Refusal::Unknown(_) => "the library answered a number that has no meaning here",
        })
    }
}

impl std::error::Error for Refusal {}

/// Why a map file was refused, and at which of its fields. There is no map then.
///
/// `Display` says the general reason; [`in_words`](FileRefusal::in_words) looks at the file again
/// and says which entry or byte it is.
#[derive(Clone, Copy, Debug, PartialEq, Eq, Hash)]
#[non_exhaustive]
pub struct FileRefusal {
    /// Why.
    pub refusal: Refusal,
    /// The number of the field, counted from 0, that was being read or is missing.
    pub field: u64,
}

impl fmt::Display for FileRefusal {
    fn fmt(&self, f: &mut fmt::Formatter) -> fmt::Result {
        write!(f, "field {}: {}", self.field, self.refusal)
    }
}

impl std::error::Error for FileRefusal {
    fn source(&self) -> Option<&(dyn std::error::Error + 'static)> {
        Some(&self.refusal)
    }
}

#[cfg(test)]
mod tests {
    use super::Refusal;

    #[test]
    fn only_0_is_done_and_every_other_number_is_kept() {
        assert_eq!(Refusal::check(0), Ok(()));
        for number in 1..=u8::MAX {
            assert_eq!(Refusal::check(number).map_err(Refusal::number), Err(number));
        }
    }

    /// The table that the C header is compared with too: a number, a tab, its words.
    #[test]
    fn the_words_are_those_of_the_c_header() {
        let table = include_str!("../../why.txt");
        let words = |number: u8| match Refusal::check_file(number) {
            Ok(()) => "done, not refused".into(),
            Err(refusal) => refusal.to_string(),
        };
        let mut told: Vec<String> = (0..11).map(|n| format!("{n}\t{}", words(n))).collect();
        told.push(format!("other\t{}", words(11)));
        assert_eq!(told, table.lines().collect::<Vec<_>>());
    }

    #[test]
    fn a_number_without_a_name_is_an_error() {
        assert_eq!(Refusal::check(9), Err(Refusal::ShortBuffer));
        assert_eq!(Refusal::check(10), Err(Refusal::Unknown(10)));
        assert_eq!(Refusal::check_file(10), Err(Refusal::MalformedFile));
        assert_eq!(Refusal::check_file(11), Err(Refusal::Unknown(11)));
    }
}
