//! Map files (RULES 5): reading, writing, and what a listing says.
mod fields;
mod words;
mod write;

use crate::map::{count_of, Tables};
use crate::{ffi, Cell, FileRefusal, Map, Refusal};

/// The bytes that the longest listing needs.
const LISTING: usize = 166_656;

/// What the program `listing` prints for the bytes of a map file; of one that is refused,
/// `refused N at F`.
pub fn listing(map_file: &[u8]) -> Vec<u8> {
    let mut out = vec![0; LISTING];
    let listed = ffi::runcedau_list_file(map_file, &mut out);
    out.truncate(count_of(listed));
    out
}

impl Map {
    /// The map of a map file (RULES 5), read by the proved reader.
    ///
    /// # Errors
    ///
    /// The first refusal, field by field (RULES 5.2), and the number of that field. There is no
    /// map then.
    ///
    /// ```
    /// use runcedau::{Map, Refusal};
    ///
    /// let file = [
    ///     &[1, 0, 8, 0x40, 0x70, 0, 0, 0, 0, 0, 0][..], // field 0: cell size 256
    ///     &[2, 0, 8, 0x40, 0x60, 0, 0, 0, 0, 0, 0],     // field 1: radius 128
    ///     &[3, 0, 9, 0, 0, 0, 0, 0, 0, 0, 0, 1],        // field 2: cell 0,0 is occupied
    ///     &[0xff, 0, 0],                                // field 3: the end
    /// ]
    /// .concat();
    /// let map = Map::read(&file)?;
    /// assert_eq!(map.points().len(), 4);
    ///
    /// let refused = Map::read(&file[..30]).unwrap_err();
    /// assert_eq!((refused.refusal, refused.field), (Refusal::MalformedFile, 2));
    /// assert_eq!(
    ///     refused.in_words(&file[..30]),
    ///     "change list no. 1 (field 2): the file stops inside it, after 5 of 9 bytes"
    /// );
    /// # Ok::<(), runcedau::FileRefusal>(())
    /// ```
    pub fn read(file: &[u8]) -> Result<Map, FileRefusal> {
        let mut tables = Tables::zeros();
        let t = &mut *tables;
        let opened = ffi::runcedau_lent_read(
            file,
            &mut t.cells,
            &mut t.points,
            &mut t.statuses,
            &mut t.blockers,
            &mut t.pairs,
        );
        let (field, map) = (opened.field, opened.map);
        Refusal::check_file(opened.refusal).map_err(|refusal| FileRefusal { refusal, field })?;
        Ok(Map { map, tables })
    }

    /// A map of these cells, in as many batches as they need. A cell that is named twice counts
    /// once.
    ///
    /// # Errors
    ///
    /// The refusal of the first batch that no choice of its cells can mend (see [`Map::write`]).
    ///
    /// ```
    /// use runcedau::{Cell, Map, Refusal};
    ///
    /// let block: Vec<Cell> = (0..1024).map(|i| Cell::new(i / 32, i % 32)).collect();
    /// let map = Map::of_cells(256.0, 128.0, &block)?;
    /// assert_eq!(map.occupied_cells(), block);
    ///
    /// let line: Vec<Cell> = (0..1025).map(|x| Cell::new(x, 0)).collect();
    /// let refused = Map::of_cells(256.0, 128.0, &line).unwrap_err();
    /// assert_eq!(refused, Refusal::TooManyCells);
    /// # Ok::<(), Refusal>(())
    /// ```
    pub fn of_cells(cell_size: f64, radius: f64, cells: &[Cell]) -> Result<Map, Refusal> {
        let mut cells = cells.to_vec();
        cells.sort();
        cells.dedup();
        write::parted(cell_size, radius, &cells).map(|(map, _)| map)
    }

    /// A map file of this map: its cell size, its radius, and change lists of at most 256 cells,
    /// each of which the library has accepted. [`Map::read`] makes of it a map with the same cell
    /// size, radius, cells, corners, points with their statuses, and pairs.
    ///
    /// It carries nothing of the past, on which blockers depend, and nothing else (RULES 7.3): a
    /// point or a pair may have another blocker, or one or none where it had none or one. So other
    /// pairs may be open.
    ///
    /// # Errors
    ///
    /// A part of the cells may have more than 64 points though all of them have not, so that a
    /// change list is refused. Eight orders of the cells are tried for every list;
    /// [`Refusal::TooManyPoints`] if none of them goes on. No floor is known where that is so.
    ///
    /// ```
    /// use runcedau::{Cell, Map};
    ///
    /// let mut map = Map::new(256.0, 128.0)?;
    /// map.change_cells(&[(Cell::new(0, 0), true)])?;
    /// let file = map.write()?;
    /// let again = Map::read(&file)?;
    /// assert_eq!(again.occupied_cells(), map.occupied_cells());
    /// assert!(map.pairs().iter().zip(&again.pairs()).all(|(p, q)| p.same_ends(q)));
    /// # Ok::<(), Box<dyn std::error::Error>>(())
    /// ```
    pub fn write(&self) -> Result<Vec<u8>, Refusal> {
        write::written(self)
    }

    /// The listing of this map (RULES 6.1), what [`listing`] says of a file.
    pub fn listing(&self) -> Vec<u8> {
        let (t, mut out) = (&*self.tables, vec![0; LISTING]);
        let listed = ffi::runcedau_lent_list(
            self.map,
            &t.cells,
            &t.points,
            &t.statuses,
            &t.blockers,
            &t.pairs,
            &mut out,
        );
        out.truncate(count_of(listed));
        out
    }
}

impl FileRefusal {
    /// The reason in a clerk's words, found by looking at the file again: which entry, cell or
    /// byte it is. Change lists and entries count from 1, fields from 0.
    ///
    /// It needs the file that was refused. It explains a verdict and gives none: where it finds no
    /// cause, as in another file, it says the general reason.
    ///
    /// ```
    /// use runcedau::Map;
    ///
    /// let refused = Map::read(&[]).unwrap_err();
    /// assert_eq!(
    ///     refused.in_words(&[]),
    ///     "the file is empty: field 0, 01 (the cell size), is missing"
    /// );
    /// ```
    pub fn in_words(&self, file: &[u8]) -> String {
        words::cause(self, file).unwrap_or_else(|| self.to_string())
    }
}
