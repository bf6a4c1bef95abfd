//! Stands in for the crate `ndarray`: views of rows that each lie in one piece, columns with a stride, and the operations that the
//! Rust asks of them.
use std::marker::PhantomData;
use std::ops::{AddAssign, Bound, Index, IndexMut, RangeBounds, RangeFull};

pub struct Axis(pub usize);

#[derive(Debug)]
pub struct ShapeError;

#[derive(Debug, Clone, Copy)]
pub struct ArrayView1<'a, T> {
    items: &'a [T],
}

/// Items row by row.
#[derive(Debug, Clone, Copy)]
pub struct ArrayView2<'a, T> {
    items: &'a [T],
    shape: [usize; 2],
}

/// Every `stride`th item from the first one on.
#[derive(Debug)]
pub struct ArrayViewMut1<'a, T> {
    first: *mut T,
    len: usize,
    stride: usize,
    lent: PhantomData<&'a mut T>,
}

/// Rows whose first items lie `stride` apart.
#[derive(Debug)]
pub struct ArrayViewMut2<'a, T> {
    first: *mut T,
    shape: [usize; 2],
    stride: usize,
    lent: PhantomData<&'a mut T>,
}

impl<'a, T> From<&'a [T]> for ArrayView1<'a, T> {
    fn from(items: &'a [T]) -> Self {
        Self { items }
    }
}

impl<'a, T> ArrayView1<'a, T> {
    pub fn len(&self) -> usize {
        self.items.len()
    }

    pub fn is_empty(&self) -> bool {
        self.items.is_empty()
    }

    pub fn dim(&self) -> usize {
        self.len()
    }

    pub fn iter(&self) -> std::slice::Iter<'a, T> {
        self.items.iter()
    }
}

impl<T> Index<usize> for ArrayView1<'_, T> {
    type Output = T;

    fn index(&self, at: usize) -> &T {
        &self.items[at]
    }
}

impl<'a, T> IntoIterator for &ArrayView1<'a, T> {
    type Item = &'a T;
    type IntoIter = std::slice::Iter<'a, T>;

    fn into_iter(self) -> Self::IntoIter {
        self.iter()
    }
}

impl<'a, T> ArrayView2<'a, T> {
    pub fn from_shape((rows, columns): (usize, usize), items: &'a [T]) -> Result<Self, ShapeError> {
        let shape = [rows, columns];
        let items = items.get(..size(shape)?).ok_or(ShapeError)?;
        Ok(Self { items, shape })
    }

    pub fn shape(&self) -> &[usize] {
        &self.shape
    }

    pub fn dim(&self) -> (usize, usize) {
        (self.shape[0], self.shape[1])
    }

    /// One row.
    pub fn slice(&self, (row, RangeFull): (usize, RangeFull)) -> ArrayView1<'a, T> {
        assert!(row < self.shape[0], "row out of bounds");
        ArrayView1::from(&self.items[row * self.shape[1]..][..self.shape[1]])
    }

    pub fn outer_iter(&self) -> impl Iterator<Item = ArrayView1<'a, T>> + use<'a, '_, T> {
        (0..self.shape[0]).map(|row| self.slice((row, ..)))
    }
}

impl<T> Index<(usize, usize)> for ArrayView2<'_, T> {
    type Output = T;

    fn index(&self, (row, column): (usize, usize)) -> &T {
        assert!(row < self.shape[0] && column < self.shape[1]);
        &self.items[row * self.shape[1] + column]
    }
}

// In the views that may write, `first` points to items that are lent for `'a` and that no other view at hand reaches: a view of rows
// lends its own rows, columns or parts, which do not meet, and is not used while they are.
impl<'a, T> ArrayViewMut1<'a, T> {
    pub fn get_mut(&mut self, at: usize) -> Option<&mut T> {
        (at < self.len).then(|| unsafe { &mut *self.first.add(at * self.stride) })
    }

    pub fn iter_mut(&mut self) -> impl Iterator<Item = &mut T> {
        let Self { first, stride, .. } = *self;
        (0..self.len).map(move |at| unsafe { &mut *first.add(at * stride) })
    }

    pub fn as_slice_mut(&mut self) -> Option<&mut [T]> {
        (self.stride == 1).then(|| unsafe { std::slice::from_raw_parts_mut(self.first, self.len) })
    }
}

impl<T> Index<usize> for ArrayViewMut1<'_, T> {
    type Output = T;

    fn index(&self, at: usize) -> &T {
        assert!(at < self.len);
        unsafe { &*self.first.add(at * self.stride) }
    }
}

impl<T> IndexMut<usize> for ArrayViewMut1<'_, T> {
    fn index_mut(&mut self, at: usize) -> &mut T {
        self.get_mut(at).expect("index out of bounds")
    }
}

impl<T: AddAssign + Copy> AddAssign<T> for ArrayViewMut1<'_, T> {
    fn add_assign(&mut self, rhs: T) {
        for item in self.iter_mut() {
            *item += rhs;
        }
    }
}

impl<'a, T> ArrayViewMut2<'a, T> {
    pub fn from_shape(
        (rows, columns): (usize, usize),
        items: &'a mut [T],
    ) -> Result<Self, ShapeError> {
        let shape = [rows, columns];
        let items = items.get_mut(..size(shape)?).ok_or(ShapeError)?;
        Ok(Self {
            first: items.as_mut_ptr(),
            shape,
            stride: columns,
            lent: PhantomData,
        })
    }

    pub fn shape(&self) -> &[usize] {
        &self.shape
    }

    pub fn view_mut(&mut self) -> ArrayViewMut2<'_, T> {
        self.slice_mut((.., ..))
    }

    /// The columns of a range.
    pub fn slice_mut(
        &mut self,
        (RangeFull, columns): (RangeFull, impl RangeBounds<usize>),
    ) -> ArrayViewMut2<'_, T> {
        let [rows, len] = self.shape;
        let from = match columns.start_bound() {
            Bound::Included(&first) => first,
            Bound::Excluded(&before) => before + 1,
            Bound::Unbounded => 0,
        };
        let to = match columns.end_bound() {
            Bound::Included(&last) => last + 1,
            Bound::Excluded(&end) => end,
            Bound::Unbounded => len,
        };
        assert!(from <= to && to <= len, "columns out of bounds");
        ArrayViewMut2 {
            first: unsafe { self.first.add(from) },
            shape: [rows, to - from],
            stride: self.stride,
            lent: PhantomData,
        }
    }

    pub fn columns_mut(&mut self) -> impl Iterator<Item = ArrayViewMut1<'_, T>> {
        let Self { first, stride, .. } = *self;
        let [len, columns] = self.shape;
        (0..columns).map(move |column| ArrayViewMut1 {
            first: unsafe { first.add(column) },
            len,
            stride,
            lent: PhantomData,
        })
    }

    pub fn outer_iter_mut(&mut self) -> impl Iterator<Item = ArrayViewMut1<'_, T>> {
        let Self { first, stride, .. } = *self;
        let [rows, len] = self.shape;
        (0..rows).map(move |row| ArrayViewMut1 {
            first: unsafe { first.add(row * stride) },
            len,
            stride: 1,
            lent: PhantomData,
        })
    }

    /// The rows; no other axis is asked for.
    pub fn axis_iter_mut(&mut self, axis: Axis) -> impl Iterator<Item = ArrayViewMut1<'_, T>> {
        assert_eq!(axis.0, 0);
        self.outer_iter_mut()
    }
}

fn size([rows, columns]: [usize; 2]) -> Result<usize, ShapeError> {
    rows.checked_mul(columns).ok_or(ShapeError)
}

#[macro_export]
macro_rules! s {
    ($rows:expr, $columns:expr) => {
        ($rows, $columns)
    };
}

#[macro_export]
macro_rules! azip {
    (($a:pat in $first:expr, $b:pat in $second:expr) $body:expr) => {
        for ($a, $b) in $first.zip($second) {
            $body;
        }
    };
}
