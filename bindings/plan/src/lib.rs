//! What the program `plan` does: a floor as characters and as SVG, the difference of two floors,
//! and a floor made of a drawing.
pub mod arguments;
mod canvas;
pub mod diff;
pub mod diff_svg;
pub mod diff_text;
pub mod drawing;
pub mod floor;
mod frame;
mod lanes;
pub mod read;
mod shape;
mod strokes;
pub mod svg;
pub mod text;
