// The root of the original copy; its modules are written by copy.py.
pub mod ast;
pub mod errors;
pub mod typecheck;
