//! Reading files, or standard input for the name `-`.
use runcedau::Map;
use std::io::Read;

pub fn bytes(name: &str) -> Result<Vec<u8>, String> {
    let mut bytes = Vec::new();
    let read = if name == "-" {
        std::io::stdin().lock().read_to_end(&mut bytes)
    } else {
        std::fs::File::open(name).and_then(|mut file| file.read_to_end(&mut bytes))
    };
    match read {
        Ok(_) => Ok(bytes),
        Err(error) => Err(format!("{} cannot be read: {error}", told(name))),
    }
}

/// The map of a map file.
pub fn map(name: &str) -> Result<Map, String> {
    let file = bytes(name)?;
    let words = |refusal: runcedau::FileRefusal| refusal.in_words(&file);
    Map::read(&file).map_err(|refusal| format!("{} is refused: {}", told(name), words(refusal)))
}

/// A file's name in a message.
pub fn told(name: &str) -> &str {
    if name == "-" {
        "standard input"
    } else {
        name
    }
}
