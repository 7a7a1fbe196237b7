//! A stub of pyo3's attribute: the function stays as it is written, and a module beside it lets a driver call what is private there.

use proc_macro::{TokenStream, TokenTree};

/// What stands beside each function: a child module sees the private names of its parent.
const REACH: [(&str, &str); 3] = [
    (
        "label_core",
        "pub mod reach {
            use super::*;
            /// The cell kinds, by a name that a driver may use.
            pub trait Cell: Nz + Elem {}
            impl<T: Nz + Elem> Cell for T {}
            /// The number kinds.
            pub trait Number: Elem + FromU32 {}
            impl<T: Elem + FromU32> Number for T {}
            #[inline(always)]
            pub fn label_impl<I: Cell, O: Number>(shape: &[usize], st: &[u8], data: &[I], out: &mut [O], nthreads: usize) -> Option<u64> {
                super::label_impl::<I, O>(shape, st, data, out, nthreads)
            }
            pub fn label_core<'py>(
                py: Python<'py>,
                input: &Bound<'py, PyUntypedArray>,
                structure: Vec<u8>,
                output: &Bound<'py, PyUntypedArray>,
            ) -> PyResult<Option<u64>> {
                super::label_core(py, input, structure, output)
            }
        }",
    ),
    ("set_par_min", "pub mod reach_par_min { pub fn set_par_min(n: usize) { super::set_par_min(n) } }"),
    (
        "set_num_threads",
        "pub mod reach { pub fn set_num_threads(n: usize) { super::set_num_threads(n).expect(\"threads\") } }",
    ),
];

fn name(item: &TokenStream) -> String {
    let mut after_fn = false;
    for t in item.clone() {
        if let TokenTree::Ident(i) = t {
            if after_fn {
                return i.to_string();
            }
            after_fn = i.to_string() == "fn";
        }
    }
    String::new()
}

#[proc_macro_attribute]
pub fn pyfunction(_: TokenStream, item: TokenStream) -> TokenStream {
    let name = name(&item);
    let mut all = item;
    for (f, text) in REACH {
        if f == name {
            all.extend(text.parse::<TokenStream>().expect("the stub's own text"));
        }
    }
    all
}
