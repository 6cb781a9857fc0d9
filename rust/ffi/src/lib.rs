//! The C interface of the proved library, for Rust: every call of `include/mukthiban.h` and of
//! `include/mukthiban_tested.h`, declared once. The headers say what each call does and answers; a test of this crate
//! holds the two declarations against each other.
//!
//! A slice is handed over as a pointer and a length in elements, an array as a pointer. A call is safe where its
//! pointers and lengths are those of slices, what is lent to be changed overlaps nothing else that is lent, and, for
//! the calls of [`tested`], what their header requires is so.
#![no_std]

/// Calls with their slices and arrays written as Rust has them.
macro_rules! calls {
    ($(fn $name:ident($($params:tt)*) -> $answer:ty;)*) => {
        $(calls!(@ $name $answer, [] $($params)*,);)*
    };
    (@ $name:ident $answer:ty, [$($done:tt)*] $p:ident: &[$e:ty], $($rest:tt)*) => {
        calls!(@ $name $answer, [$($done)* $p: *const $e, _: usize,] $($rest)*);
    };
    (@ $name:ident $answer:ty, [$($done:tt)*] $p:ident: &mut [$e:ty], $($rest:tt)*) => {
        calls!(@ $name $answer, [$($done)* $p: *mut $e, _: usize,] $($rest)*);
    };
    (@ $name:ident $answer:ty, [$($done:tt)*] $p:ident: &mut $e:ty, $($rest:tt)*) => {
        calls!(@ $name $answer, [$($done)* $p: *mut $e,] $($rest)*);
    };
    (@ $name:ident $answer:ty, [$($done:tt)*] $p:ident: &$e:ty, $($rest:tt)*) => {
        calls!(@ $name $answer, [$($done)* $p: *const $e,] $($rest)*);
    };
    (@ $name:ident $answer:ty, [$($done:tt)*] $p:ident: $e:ty, $($rest:tt)*) => {
        calls!(@ $name $answer, [$($done)* $p: $e,] $($rest)*);
    };
    (@ $name:ident $answer:ty, [$($done:tt)*] $(,)?) => {
        extern "C" {
            pub fn $name($($done)*) -> $answer;
        }
    };
}

mod answers;
mod calls;
pub mod tested;

pub use answers::*;
pub use calls::*;
