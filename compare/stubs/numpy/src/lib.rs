//! A stub of numpy: arrays are a driver's own memory, described by `pyo3::Object`.

use pyo3::{Bound, Named, Object, Python};
use std::marker::PhantomData;

pub trait Element {
    const DTYPE: &'static str;
}
macro_rules! element { ($($t:ident),*) => {$(impl Element for $t { const DTYPE: &'static str = stringify!($t); })*}; }
element!(u8, i8, u16, i16, u32, i32, u64, i64, f32, f64);

pub struct PyUntypedArray;
pub struct PyArrayDyn<T>(PhantomData<T>);
pub struct PyArrayDescr;

impl<T: Element> Named for PyArrayDyn<T> {
    const NAME: &'static str = T::DTYPE;
}

/// The entries of `data`, in the given dimensions.
///
/// # Safety
/// `shape` multiplies to at most `data`'s length, and `data` outlives every use of the array.
pub unsafe fn array<T: Element>(data: *mut T, shape: &[usize], contiguous: bool) -> Bound<'static, PyUntypedArray> {
    Bound::stub(Object { at: data.cast(), shape: shape.to_vec(), kind: T::DTYPE, contiguous })
}

fn descr<'py>(kind: &'static str) -> Bound<'py, PyArrayDescr> {
    Bound::stub(Object { at: std::ptr::null_mut(), shape: Vec::new(), kind, contiguous: false })
}

pub fn dtype<'py, T: Element>(_: Python<'py>) -> Bound<'py, PyArrayDescr> {
    descr(T::DTYPE)
}

pub trait PyArrayDescrMethods {
    fn is_equiv_to(&self, other: &Self) -> bool;
}
impl PyArrayDescrMethods for Bound<'_, PyArrayDescr> {
    fn is_equiv_to(&self, other: &Self) -> bool {
        self.object.kind == other.object.kind
    }
}

pub trait PyUntypedArrayMethods<'py> {
    fn is_c_contiguous(&self) -> bool;
    fn shape(&self) -> &[usize];
    fn dtype(&self) -> Bound<'py, PyArrayDescr>;
}
impl<'py> PyUntypedArrayMethods<'py> for Bound<'py, PyUntypedArray> {
    fn is_c_contiguous(&self) -> bool {
        self.object.contiguous
    }
    fn shape(&self) -> &[usize] {
        &self.object.shape
    }
    fn dtype(&self) -> Bound<'py, PyArrayDescr> {
        descr(self.object.kind)
    }
}

#[derive(Debug)]
pub struct NotContiguousError;

pub trait PyArrayMethods<T> {
    /// # Safety
    /// As in numpy: no other view writes meanwhile.
    unsafe fn as_slice(&self) -> Result<&[T], NotContiguousError>;
    /// # Safety
    /// As in numpy: no other view is alive meanwhile.
    #[allow(clippy::mut_from_ref)]
    unsafe fn as_slice_mut(&self) -> Result<&mut [T], NotContiguousError>;
}
impl<T: Element> PyArrayMethods<T> for Bound<'_, PyArrayDyn<T>> {
    unsafe fn as_slice(&self) -> Result<&[T], NotContiguousError> {
        if !self.object.contiguous {
            return Err(NotContiguousError);
        }
        let n = self.object.shape.iter().product();
        Ok(unsafe { std::slice::from_raw_parts(self.object.at.cast(), n) })
    }
    unsafe fn as_slice_mut(&self) -> Result<&mut [T], NotContiguousError> {
        if !self.object.contiguous {
            return Err(NotContiguousError);
        }
        let n = self.object.shape.iter().product();
        Ok(unsafe { std::slice::from_raw_parts_mut(self.object.at.cast(), n) })
    }
}
