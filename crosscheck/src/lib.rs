//! A check of the sharing library and its programs from outside: another implementation of the same
//! rules, the library's calls, the programs, generated cases, and the comparison.

#![deny(unsafe_code)]

pub mod calls;
pub mod cases;
pub mod compare;
#[allow(unsafe_code)]
pub mod library;
pub mod outcomes;
pub mod program;
pub mod random;
pub mod reference;
