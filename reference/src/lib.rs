//! clarabel 0.11.1's own cut and joining, behind a thin public door.
//!
//! Files below `algebra` and `solver` are clarabel's unless their first line says `Stand-in` or `Cut`
//! (README.md lists each). Only `door` is public.
#![allow(dead_code, unused_imports, non_snake_case, confusable_idents, mixed_script_confusables)]
#![allow(clippy::all)]

pub(crate) mod algebra;
pub(crate) mod qdldl;
pub(crate) mod solver;

pub mod door;
