//! Stand-ins for what nalgebra and arrayvec give the ported Rust, written from the specification's words:
//! a two-term dot product is the x product plus the y product; a norm is the root of the dot product with itself.
use std::ops::{Add, Div, Mul, Sub};

#[derive(Debug, Clone, Copy, PartialEq)]
pub struct Point {
    pub x: f64,
    pub y: f64,
}

#[derive(Debug, Clone, Copy, PartialEq)]
pub struct Vector {
    pub x: f64,
    pub y: f64,
}

impl Point {
    pub fn new(x: f64, y: f64) -> Self {
        Self { x, y }
    }
}

impl Vector {
    pub fn new(x: f64, y: f64) -> Self {
        Self { x, y }
    }

    pub fn dot(&self, other: &Vector) -> f64 {
        self.x * other.x + self.y * other.y
    }

    pub fn norm(&self) -> f64 {
        self.dot(self).sqrt()
    }
}

impl Sub for Point {
    type Output = Vector;
    fn sub(self, other: Point) -> Vector {
        Vector::new(self.x - other.x, self.y - other.y)
    }
}

impl Add<Vector> for Point {
    type Output = Point;
    fn add(self, v: Vector) -> Point {
        Point::new(self.x + v.x, self.y + v.y)
    }
}

impl Sub<Vector> for Point {
    type Output = Point;
    fn sub(self, v: Vector) -> Point {
        Point::new(self.x - v.x, self.y - v.y)
    }
}

impl Sub for Vector {
    type Output = Vector;
    fn sub(self, v: Vector) -> Vector {
        Vector::new(self.x - v.x, self.y - v.y)
    }
}

impl Mul<f64> for Vector {
    type Output = Vector;
    fn mul(self, f: f64) -> Vector {
        Vector::new(self.x * f, self.y * f)
    }
}

impl Mul<Vector> for f64 {
    type Output = Vector;
    fn mul(self, v: Vector) -> Vector {
        v * self
    }
}

impl Div<f64> for Vector {
    type Output = Vector;
    fn div(self, f: f64) -> Vector {
        Vector::new(self.x / f, self.y / f)
    }
}

/// At most N values, by value.
#[derive(Debug, Clone, Copy)]
pub struct ArrayVec<T, const N: usize> {
    values: [Option<T>; N],
    count: usize,
}

impl<T: Copy, const N: usize> ArrayVec<T, N> {
    pub fn new() -> Self {
        Self {
            values: [None; N],
            count: 0,
        }
    }

    pub fn push(&mut self, value: T) {
        self.values[self.count] = Some(value);
        self.count += 1;
    }
}

impl<T, const N: usize> IntoIterator for ArrayVec<T, N> {
    type Item = T;
    type IntoIter = std::iter::Flatten<std::array::IntoIter<Option<T>, N>>;
    fn into_iter(self) -> Self::IntoIter {
        self.values.into_iter().flatten()
    }
}

/// mapf/src/util.rs
pub fn triangular_for<Item>(
    iterable: impl Iterator<Item = Item> + Clone,
    mut f: impl FnMut(&Item, Item),
) {
    let mut outer_iter = iterable.into_iter();
    while let Some(outer_value) = outer_iter.next() {
        let mut inner_iter = outer_iter.clone();
        while let Some(inner_value) = inner_iter.next() {
            f(&outer_value, inner_value);
        }
    }
}
