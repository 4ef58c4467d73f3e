//! For nalgebra: points and vectors, every step one rounded f64 operation in document 01's order.
//!
//! The difference of two points is a type of its own, and its norm a `Length`. In the originals a number times a length stands in one place, the
//! degeneracy test `DEGENERATE_SIN * e1.norm() * e2.norm()`; there the threshold of the call takes the constant's place, and the text stays as it is.

use std::cell::Cell;
use std::ops::{Add, AddAssign, Index, Mul, Sub};

thread_local! {
    static THRESHOLD: Cell<f64> = const { Cell::new(f64::NAN) };
}

/// Sets the threshold that stands for `DEGENERATE_SIN` from now on.
pub fn set_threshold(s: f64) {
    THRESHOLD.set(s);
}

#[derive(Clone, Copy, Debug, PartialEq)]
pub struct SVector<T, const D: usize>([T; D]);

impl<const D: usize> SVector<f64, D> {
    pub fn zeros() -> Self {
        SVector([0.0; D])
    }
    #[inline]
    pub fn dot(&self, other: &Self) -> f64 {
        (self.0[0] * other.0[0] + self.0[1] * other.0[1]) + self.0[2] * other.0[2]
    }
    #[inline]
    pub fn norm_squared(&self) -> f64 {
        self.dot(self)
    }
    #[inline]
    pub fn norm(&self) -> f64 {
        self.norm_squared().sqrt()
    }
    #[inline]
    pub fn cross(&self, other: &Self) -> Self {
        let (a, b) = (&self.0, &other.0);
        let mut c = [0.0; D];
        c[0] = a[1] * b[2] - a[2] * b[1];
        c[1] = a[2] * b[0] - a[0] * b[2];
        c[2] = a[0] * b[1] - a[1] * b[0];
        SVector(c)
    }
}

impl<const D: usize> Sub for SVector<f64, D> {
    type Output = Self;
    #[inline]
    fn sub(self, other: Self) -> Self {
        SVector(std::array::from_fn(|i| self.0[i] - other.0[i]))
    }
}

impl<const D: usize> Add for SVector<f64, D> {
    type Output = Self;
    fn add(self, other: Self) -> Self {
        SVector(std::array::from_fn(|i| self.0[i] + other.0[i]))
    }
}

impl<const D: usize> AddAssign for SVector<f64, D> {
    fn add_assign(&mut self, other: Self) {
        *self = *self + other;
    }
}

impl<const D: usize> Mul<f64> for SVector<f64, D> {
    type Output = Self;
    fn mul(self, factor: f64) -> Self {
        SVector(std::array::from_fn(|i| self.0[i] * factor))
    }
}

impl<T, const D: usize> Index<usize> for SVector<T, D> {
    type Output = T;
    #[inline]
    fn index(&self, i: usize) -> &T {
        &self.0[i]
    }
}

#[derive(Clone, Copy, Debug, PartialEq)]
pub struct Point<T, const D: usize> {
    pub coords: SVector<T, D>,
}

impl<T, const D: usize> From<[T; D]> for Point<T, D> {
    fn from(coordinates: [T; D]) -> Self {
        Point { coords: SVector(coordinates) }
    }
}

impl<T, const D: usize> Index<usize> for Point<T, D> {
    type Output = T;
    #[inline]
    fn index(&self, i: usize) -> &T {
        &self.coords.0[i]
    }
}

impl<const D: usize> Sub for Point<f64, D> {
    type Output = Difference<D>;
    #[inline]
    fn sub(self, other: Self) -> Difference<D> {
        Difference(self.coords - other.coords)
    }
}

/// The difference of two points: a vector whose norm is a `Length`.
#[derive(Clone, Copy)]
pub struct Difference<const D: usize>(SVector<f64, D>);

impl<const D: usize> Difference<D> {
    #[inline]
    pub fn dot(&self, other: &Self) -> f64 {
        self.0.dot(&other.0)
    }
    #[inline]
    pub fn norm_squared(&self) -> f64 {
        self.0.norm_squared()
    }
    #[inline]
    pub fn norm(&self) -> Length {
        Length(self.0.norm())
    }
    #[inline]
    pub fn cross(&self, other: &Self) -> SVector<f64, D> {
        self.0.cross(&other.0)
    }
}

#[derive(Clone, Copy)]
pub struct Length(f64);

/// The threshold times a length.
#[derive(Clone, Copy)]
pub struct Scaled(f64);

impl Mul<Length> for f64 {
    type Output = Scaled;
    #[inline]
    fn mul(self, length: Length) -> Scaled {
        Scaled(THRESHOLD.get() * length.0)
    }
}

impl Mul<Length> for Scaled {
    type Output = f64;
    #[inline]
    fn mul(self, length: Length) -> f64 {
        self.0 * length.0
    }
}

impl FromIterator<Length> for Vec<f64> {
    fn from_iter<I: IntoIterator<Item = Length>>(lengths: I) -> Self {
        lengths.into_iter().map(|length| length.0).collect()
    }
}

#[derive(Clone, Copy, Debug, PartialEq)]
pub struct Unit<V>(V);

impl<const D: usize> Unit<SVector<f64, D>> {
    pub fn new_normalize(v: SVector<f64, D>) -> Self {
        let norm = v.norm();
        Unit(SVector(v.0.map(|x| x / norm)))
    }
    pub fn try_new(v: SVector<f64, D>, least: f64) -> Option<Self> {
        (v.norm_squared() > least * least).then(|| Self::new_normalize(v))
    }
    pub fn into_inner(self) -> SVector<f64, D> {
        self.0
    }
}
