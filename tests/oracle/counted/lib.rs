// The root of the counted copy; ast, errors and typecheck are written by copy.py.

/// The counted copy's strings are not wanted (types may be of millions of
/// words), so the Rust's `format!` makes empty ones here.
macro_rules! format {
    ($($part:tt)*) => {
        String::new()
    };
}

pub mod ast;
pub mod errors;
pub mod judgements;
pub mod meter;
pub mod nameless;
pub mod typecheck;
