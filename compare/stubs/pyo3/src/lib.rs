//! A stub of pyo3: as much as label.rs, common.rs and pool.rs name. No Python stands behind it; an object is a description of an array.

use std::marker::PhantomData;

/// An array: where its entries are, its dimensions, the name of its entries' type, and whether it is in C order without gaps.
#[derive(Clone)]
pub struct Object {
    pub at: *mut u8,
    pub shape: Vec<usize>,
    pub kind: &'static str,
    pub contiguous: bool,
}

#[derive(Clone, Copy)]
pub struct Python<'py>(PhantomData<&'py ()>);

impl Python<'_> {
    pub fn stub() -> Self {
        Python(PhantomData)
    }
    pub fn detach<T>(self, f: impl FnOnce() -> T) -> T {
        f()
    }
}

/// The layout does not depend on `T`, so that a cast is a cast of the reference.
#[repr(C)]
pub struct Bound<'py, T> {
    pub object: Object,
    kind: PhantomData<(&'py (), fn() -> T)>,
}

impl<T> Bound<'_, T> {
    pub fn stub(object: Object) -> Self {
        Bound { object, kind: PhantomData }
    }
}

impl<'py, T> Bound<'py, T> {
    pub fn cast<U: Named>(&self) -> PyResult<&Bound<'py, U>> {
        if self.object.kind != U::NAME {
            return Err(PyErr("an array of another kind"));
        }
        // SAFETY: the layout is that of `Object`, whatever the type parameter.
        Ok(unsafe { &*(self as *const Bound<'py, T>).cast::<Bound<'py, U>>() })
    }
}

impl<T> Clone for Bound<'_, T> {
    fn clone(&self) -> Self {
        Bound::stub(self.object.clone())
    }
}

/// The name of an array type's entries.
pub trait Named {
    const NAME: &'static str;
}

#[derive(Debug)]
pub struct PyErr(pub &'static str);
pub type PyResult<T> = Result<T, PyErr>;
pub struct PyCFunction;
pub struct PyModule;

impl Bound<'_, PyModule> {
    pub fn add_function(&self, _: PyCFunction) -> PyResult<()> {
        unimplemented!("a stub: there is no module")
    }
}

pub mod exceptions {
    pub struct PyValueError;
    impl PyValueError {
        pub fn new_err(why: &'static str) -> super::PyErr {
            super::PyErr(why)
        }
    }
}

#[macro_export]
macro_rules! wrap_pyfunction {
    ($f:ident, $m:expr) => {{
        let _ = ($f, $m);
        Ok::<$crate::PyCFunction, $crate::PyErr>($crate::PyCFunction)
    }};
}

pub mod prelude {
    pub use crate::{Bound, PyModule, PyResult, Python, wrap_pyfunction};
    pub use pyo3_macros::pyfunction;
}
