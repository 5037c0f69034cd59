//! Stand-in for `nalgebra`: points and matrices that are stored and indexed.
//!
//! No number is computed here. What the originals only need for compiling
//! stops with a message. The one way through is that of `dlt_homography`:
//! `null_space` transposes its matrix, which is recorded (see [`recorded`]),
//! and then finds nothing but zeros, which `dlt_homography` refuses.

use std::cell::RefCell;
use std::ops::{Deref, DivAssign, Index, IndexMut, Mul};

fn left_out() -> ! {
    unimplemented!("nalgebra's decompositions and products are left out")
}

// Vectors and points.

#[derive(Clone, Copy, Debug)]
pub struct Vector2<T> {
    pub x: T,
    pub y: T,
}

#[derive(Clone, Copy, Debug)]
pub struct Vector3<T> {
    pub x: T,
    pub y: T,
    pub z: T,
}

#[derive(Clone, Copy, Debug)]
pub struct Point2<T> {
    pub coords: Vector2<T>,
}

#[derive(Clone, Copy, Debug)]
pub struct Point3<T> {
    pub coords: Vector3<T>,
}

impl<T> Vector2<T> {
    pub fn iter(&self) -> std::array::IntoIter<&T, 2> {
        [&self.x, &self.y].into_iter()
    }
}

impl<T> Vector3<T> {
    pub fn new(x: T, y: T, z: T) -> Self {
        Self { x, y, z }
    }
}

impl<T> Point2<T> {
    pub fn new(x: T, y: T) -> Self {
        Self {
            coords: Vector2 { x, y },
        }
    }
}

impl<T> Point3<T> {
    pub fn new(x: T, y: T, z: T) -> Self {
        Self {
            coords: Vector3 { x, y, z },
        }
    }
}

impl<T> Deref for Point2<T> {
    type Target = Vector2<T>;
    fn deref(&self) -> &Vector2<T> {
        &self.coords
    }
}

impl<T> Deref for Point3<T> {
    type Target = Vector3<T>;
    fn deref(&self) -> &Vector3<T> {
        &self.coords
    }
}

// Matrices of fixed size.

#[derive(Clone, Copy, Debug)]
pub struct Fixed<T, const R: usize, const C: usize> {
    pub rows: [[T; C]; R],
}

pub type Matrix3<T> = Fixed<T, 3, 3>;
pub type Matrix4<T> = Fixed<T, 4, 4>;
pub type Matrix3x4<T> = Fixed<T, 3, 4>;

pub struct Svd3 {
    pub u: Option<Matrix3<f64>>,
    pub v_t: Option<Matrix3<f64>>,
}

impl<const R: usize, const C: usize> Fixed<f64, R, C> {
    pub fn zeros() -> Self {
        Self {
            rows: [[0.0; C]; R],
        }
    }
    pub fn nrows(&self) -> usize {
        R
    }
    pub fn ncols(&self) -> usize {
        C
    }
    pub fn iter(&self) -> impl Iterator<Item = &f64> {
        self.rows.iter().flatten()
    }
}

/// The arguments of `new` are in row order, as nalgebra documents.
#[allow(clippy::too_many_arguments)]
impl Matrix3<f64> {
    #[rustfmt::skip]
    pub fn new(
        a: f64, b: f64, c: f64,
        d: f64, e: f64, f: f64,
        g: f64, h: f64, i: f64,
    ) -> Self {
        Self { rows: [[a, b, c], [d, e, f], [g, h, i]] }
    }
    pub fn svd(&self, _u: bool, _v: bool) -> Svd3 {
        left_out()
    }
    pub fn determinant(&self) -> f64 {
        left_out()
    }
    pub fn try_inverse(&self) -> Option<Self> {
        left_out()
    }
}

#[allow(clippy::too_many_arguments)]
impl Matrix4<f64> {
    #[rustfmt::skip]
    pub fn new(
        a: f64, b: f64, c: f64, d: f64,
        e: f64, f: f64, g: f64, h: f64,
        i: f64, j: f64, k: f64, l: f64,
        m: f64, n: f64, o: f64, p: f64,
    ) -> Self {
        Self { rows: [[a, b, c, d], [e, f, g, h], [i, j, k, l], [m, n, o, p]] }
    }
}

impl<T, const R: usize, const C: usize> Index<(usize, usize)> for Fixed<T, R, C> {
    type Output = T;
    fn index(&self, (row, column): (usize, usize)) -> &T {
        &self.rows[row][column]
    }
}

impl<T, const R: usize, const C: usize> IndexMut<(usize, usize)> for Fixed<T, R, C> {
    fn index_mut(&mut self, (row, column): (usize, usize)) -> &mut T {
        &mut self.rows[row][column]
    }
}

impl Mul for Matrix3<f64> {
    type Output = Self;
    fn mul(self, _: Self) -> Self {
        left_out()
    }
}

impl DivAssign<f64> for Matrix3<f64> {
    fn div_assign(&mut self, _: f64) {
        left_out()
    }
}

// Rigid transforms.

#[derive(Clone, Copy, Debug)]
pub struct Translation3<T>(pub Vector3<T>);

#[derive(Clone, Copy, Debug)]
pub struct Rotation3<T>(pub Matrix3<T>);

#[derive(Clone, Copy, Debug)]
pub struct UnitQuaternion<T>(pub Rotation3<T>);

#[derive(Clone, Copy, Debug)]
pub struct Isometry3<T>(pub Translation3<T>, pub UnitQuaternion<T>);

impl<T> From<Vector3<T>> for Translation3<T> {
    fn from(v: Vector3<T>) -> Self {
        Self(v)
    }
}

impl<T> Rotation3<T> {
    pub fn from_matrix_unchecked(m: Matrix3<T>) -> Self {
        Self(m)
    }
}

impl<T> UnitQuaternion<T> {
    pub fn from_rotation_matrix(_: &Rotation3<T>) -> Self {
        left_out()
    }
}

impl<T> Isometry3<T> {
    pub fn from_parts(t: Translation3<T>, q: UnitQuaternion<T>) -> Self {
        Self(t, q)
    }
}

// Vectors and matrices of any size.

#[derive(Clone, Debug)]
pub struct DVector<T>(Vec<T>);

impl<T> DVector<T> {
    pub fn iter(&self) -> std::slice::Iter<'_, T> {
        self.0.iter()
    }
    pub fn into_owned(self) -> Self {
        self
    }
}

impl<T> Index<usize> for DVector<T> {
    type Output = T;
    fn index(&self, place: usize) -> &T {
        &self.0[place]
    }
}

/// Stored row after row.
#[derive(Clone, Debug)]
pub struct DMatrix<T> {
    nrows: usize,
    ncols: usize,
    rows: Vec<T>,
}

pub struct SymmetricEigen {
    pub eigenvalues: DVector<f64>,
    pub eigenvectors: DMatrix<f64>,
}

thread_local! {
    static RECORDED: RefCell<Option<Vec<f64>>> = const { RefCell::new(None) };
}

/// The matrix last transposed in this thread, row after row; forgotten once
/// it is given.
pub fn recorded() -> Option<Vec<f64>> {
    RECORDED.take()
}

impl DMatrix<f64> {
    pub fn zeros(nrows: usize, ncols: usize) -> Self {
        Self {
            nrows,
            ncols,
            rows: vec![0.0; nrows * ncols],
        }
    }
    pub fn ncols(&self) -> usize {
        self.ncols
    }
    pub fn iter(&self) -> std::slice::Iter<'_, f64> {
        self.rows.iter()
    }
    /// Records the matrix; gives zeros.
    pub fn transpose(&self) -> Self {
        RECORDED.set(Some(self.rows.clone()));
        Self::zeros(self.ncols, self.nrows)
    }
    /// Zeros.
    pub fn symmetric_eigen(self) -> SymmetricEigen {
        SymmetricEigen {
            eigenvalues: DVector(vec![0.0; self.ncols]),
            eigenvectors: Self::zeros(self.ncols, self.ncols),
        }
    }
    pub fn column(&self, column: usize) -> DVector<f64> {
        DVector((0..self.nrows).map(|row| self[(row, column)]).collect())
    }
}

impl<T> Index<(usize, usize)> for DMatrix<T> {
    type Output = T;
    fn index(&self, (row, column): (usize, usize)) -> &T {
        assert!(row < self.nrows && column < self.ncols);
        &self.rows[row * self.ncols + column]
    }
}

impl<T> IndexMut<(usize, usize)> for DMatrix<T> {
    fn index_mut(&mut self, (row, column): (usize, usize)) -> &mut T {
        assert!(row < self.nrows && column < self.ncols);
        &mut self.rows[row * self.ncols + column]
    }
}

impl Mul<&DMatrix<f64>> for DMatrix<f64> {
    type Output = DMatrix<f64>;
    /// Zeros.
    fn mul(self, other: &DMatrix<f64>) -> DMatrix<f64> {
        DMatrix::zeros(self.nrows, other.ncols)
    }
}

pub struct Schur;

pub struct Complex {
    pub re: f64,
    pub im: f64,
}

impl Schur {
    pub fn new(_: DMatrix<f64>) -> Self {
        left_out()
    }
    pub fn complex_eigenvalues(&self) -> Vec<Complex> {
        left_out()
    }
}
