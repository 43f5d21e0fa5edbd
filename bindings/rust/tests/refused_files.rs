//! Refused map files: no map, the verdict of the library, and a sentence that says what is wrong.
#[path = "common/examples.rs"]
mod examples;
#[path = "common/random.rs"]
mod random;

use examples::examples;
use random::Random;
use runcedau::{FileRefusal, Map};

fn field(tag: u8, value: &[u8]) -> Vec<u8> {
    let length = value.len() as u16;
    [&[tag], &length.to_be_bytes()[..], value].concat()
}

/// A cell size and a radius.
fn head(size: f64, radius: f64) -> Vec<u8> {
    let size = field(1, &size.to_be_bytes());
    [size, field(2, &radius.to_be_bytes())].concat()
}

/// A change list of x, y and the last byte.
fn list(entries: &[(i32, i32, u8)]) -> Vec<u8> {
    let bytes =
        |(x, y, last): &(i32, i32, u8)| [&x.to_be_bytes()[..], &y.to_be_bytes(), &[*last]].concat();
    field(3, &entries.iter().flat_map(bytes).collect::<Vec<u8>>())
}

/// A column of cells.
fn column(x: i32, count: i32) -> Vec<u8> {
    list(&(0..count).map(|y| (x, y, 1)).collect::<Vec<_>>())
}

const END: [u8; 3] = [0xff, 0, 0];

/// `10 at 2: ` and the words.
fn told(file: &[u8]) -> String {
    let refused = Map::read(file).expect_err("a refused file");
    let (number, field) = (refused.refusal.number(), refused.field);
    format!("{number} at {field}: {}", refused.in_words(file))
}

/// Each follows a good head.
fn check(cases: &[(&[&[u8]], &str)]) {
    for (parts, words) in cases {
        let file = [&head(256.0, 128.0)[..], &parts.concat()].concat();
        assert_eq!(told(&file), *words);
    }
}

#[test]
fn fields_that_are_missing_or_not_to_be_there() {
    let head = head(256.0, 128.0);
    assert_eq!(
        told(&[]),
        "10 at 0: the file is empty: field 0, 01 (the cell size), is missing"
    );
    assert_eq!(
        told(&head[..11]),
        "10 at 1: the file stops before field 1: 02 (the radius) is missing"
    );
    assert_eq!(
        told(&head[11..]),
        "10 at 0: field 0 begins with byte 02 where 01 (the cell size) may stand"
    );
    assert_eq!(
        told(&head[..11].repeat(2)),
        "10 at 1: field 1 begins with byte 01 where 02 (the radius) may stand"
    );
    check(&[
        (
            &[],
            "10 at 2: the file stops before field 2: 03 (a change list) or FF (the end) is missing",
        ),
        (
            &[&column(0, 1), &[4, 0, 0]],
            "10 at 3: field 3 begins with byte 04 where 03 (a change list) or FF (the end) \
             may stand",
        ),
        (&[&END, &[0]], "10 at 3: field 3: a byte follows the end"),
        (&[&END, &END], "10 at 3: field 3: 3 bytes follow the end"),
        (
            &[&END, &[0; 1234]],
            "10 at 3: field 3: 1,234 bytes follow the end",
        ),
    ]);
}

#[test]
fn lengths_and_values_that_are_not_whole() {
    let head = head(256.0, 128.0);
    assert_eq!(
        told(&field(1, &[0; 9])),
        "10 at 0: cell size (field 0): its length 9 is not 8"
    );
    assert_eq!(
        told(&head[..20]),
        "10 at 1: radius (field 1): the file stops inside it, after 6 of 8 bytes"
    );
    check(&[
        (
            &[&column(0, 1), &[3, 0]],
            "10 at 3: change list no. 2 (field 3): the file stops inside its length",
        ),
        (
            &[&field(3, &[0; 10])],
            "10 at 2: change list no. 1 (field 2): its length 10 is not a multiple of 9",
        ),
        (
            &[&[0xff, 4, 1]],
            "10 at 2: the end (field 2): its length 1,025 is not 0",
        ),
        (
            &[&column(0, 128)[..1000]],
            "10 at 2: change list no. 1 (field 2): the file stops inside it, \
             after 997 of 1,152 bytes",
        ),
        (
            &[&list(&[(0, 0, 1), (0, 1, 7)]), &END],
            "10 at 2: change list no. 1 (field 2): entry 2 ends in 7 where 0 (free) \
             or 1 (occupied) may stand",
        ),
    ]);
}

#[test]
fn cell_sizes_and_radii() {
    let size = |size: f64| told(&field(1, &size.to_be_bytes()));
    let least = "is not from 1/1,024 to 65,536";
    assert_eq!(size(0.0), format!("1 at 0: cell size (field 0): 0 {least}"));
    assert_eq!(
        size(-2.5),
        format!("1 at 0: cell size (field 0): -2.5 {least}")
    );
    assert_eq!(
        size(f64::NAN),
        format!("1 at 0: cell size (field 0): NaN {least}")
    );
    assert_eq!(
        size(1e300),
        format!("1 at 0: cell size (field 0): 1e300 {least}")
    );
    let radius = |radius: f64| told(&head(256.0, radius));
    assert_eq!(radius(-3.0), "2 at 1: radius (field 1): -3 is below 0");
    assert_eq!(
        radius(f64::NEG_INFINITY),
        "2 at 1: radius (field 1): -inf is not a finite number"
    );
    assert_eq!(
        radius(20_000.0),
        "2 at 1: radius (field 1): 20000 is more than 63.5 times the cell size 256"
    );
}

/// The least radius that is refused, of many cell sizes, is told as too great.
#[test]
fn radii_at_the_limit() {
    let mut random = Random(7);
    for _ in 0..1000 {
        let size = 0.001 + random.below(1 << 40) as f64 / 2f64.powi(25);
        let mut radius = 63.5 * size;
        while Map::new(size, radius).is_ok() {
            radius = f64::from_bits(radius.to_bits() + 1);
        }
        let words = told(&head(size, radius));
        assert!(
            words.contains(" is more than 63.5 times the cell size "),
            "{words}"
        );
    }
}

#[test]
fn change_lists_that_are_too_long_or_out_of_order() {
    check(&[
        (
            &[&column(0, 300)],
            "3 at 2: change list no. 1 (field 2): it has 300 entries, and 256 are the most",
        ),
        (
            &[&[3, 0x09, 0x06]],
            "3 at 2: change list no. 1 (field 2): its length is 2,310 bytes, \
             and 2,304 (256 entries) are the most",
        ),
        (
            &[&column(0, 1), &list(&[(1, 1, 1), (3, 1, 1), (3, 1, 0)])],
            "4 at 3: change list no. 2 (field 3): cell 3,1 is named twice (entries 2 and 3)",
        ),
        (
            &[&list(&[(3, 1, 1), (4, 0, 1), (3, 1, 0)])],
            "4 at 2: change list no. 1 (field 2): cell 3,1 is named twice (entries 1 and 3)",
        ),
        (
            &[&list(&[(1, 1, 1), (3, 1, 1), (2, 0, 1)])],
            "4 at 2: change list no. 1 (field 2): cell 2,0 (entry 3) comes after 3,1 (entry 2): \
             cells must ascend by x, then y",
        ),
    ]);
}

#[test]
fn change_lists_that_ask_for_too_much() {
    let lone: Vec<(i32, i32, u8)> = (0..17).map(|x| (9 * x, 9, 1)).collect();
    let columns: Vec<u8> = (0..4).flat_map(|x| column(x, 256)).collect();
    let more = list(&[(0, 0, 0), (8, 0, 1), (8, 1, 1), (8, 2, 1)]);
    check(&[
        (
            &[&list(&[(0, 0, 1), (1_048_576, 0, 1), (2_000_000, 3, 1)])],
            "5 at 2: change list no. 1 (field 2): cell 2000000,3 (entry 3) lies beyond 1,048,576",
        ),
        (
            &[&list(&[(0, i32::MIN, 0)])],
            "5 at 2: change list no. 1 (field 2): cell 0,-2147483648 (entry 1) \
             lies beyond -1,048,576",
        ),
        (
            &[&columns, &more],
            "6 at 6: change list no. 5 (field 6): 1,026 cells would be occupied, \
             and 1,024 are the most",
        ),
        (
            &[&column(0, 0), &list(&lone)],
            "7 at 3: change list no. 2 (field 3): there would be more than 64 points",
        ),
    ]);
}

/// Bytes cut off, cut out, put in, said twice or altered.
fn damage(file: &mut Vec<u8>, random: &mut Random) {
    let from = random.below(file.len() as i64 + 1) as usize;
    let to = (from + random.below(30) as usize).min(file.len());
    let byte = [0, 1, 2, 3, 9, 0x40, 0xff, random.next() as u8][random.below(8) as usize];
    match random.below(5) {
        0 => file.truncate(from),
        1 => drop(file.drain(from..to)),
        2 => file.insert(from, byte),
        3 => drop(file.splice(from..from, file[from..to].to_vec())),
        _ => drop(file.splice(from..(from + 1).min(file.len()), [byte])),
    }
}

/// Whether a sentence names the field of the verdict.
fn is_named(words: &str, verdict: &FileRefusal) -> bool {
    let number = |words: &str| {
        words.split(|c: char| !c.is_ascii_digit()).next() == Some(&verdict.field.to_string())
    };
    words.split("field ").skip(1).any(number)
}

/// The listing has the same verdict, a cause is found for each, and a verdict on another file is
/// told as well.
#[test]
fn damaged_files_are_told_with_their_field() {
    let mut random = Random(3);
    let files: Vec<Vec<u8>> = examples().into_iter().map(|(_, file)| file).collect();
    let mut refused: Vec<FileRefusal> = Vec::new();
    while refused.len() < 20_000 {
        let mut file = files[random.below(files.len() as i64) as usize].clone();
        (0..=random.below(3)).for_each(|_| damage(&mut file, &mut random));
        let Err(verdict) = Map::read(&file) else {
            continue;
        };
        let (number, field) = (verdict.refusal.number(), verdict.field);
        let listed = format!("refused {number} at {field}\n");
        assert_eq!(runcedau::listing(&file), listed.as_bytes());
        let words = verdict.in_words(&file);
        assert!(
            is_named(&words, &verdict) && words != verdict.to_string(),
            "{verdict}: {file:02x?}"
        );
        if let Some(other) = refused.last() {
            assert!(is_named(&other.in_words(&file), other));
        }
        refused.push(verdict);
    }
    let mut numbers: Vec<u8> = refused
        .iter()
        .map(|verdict| verdict.refusal.number())
        .collect();
    numbers.sort();
    numbers.dedup();
    assert_eq!(numbers, [1, 2, 3, 4, 5, 7, 10]);
}
