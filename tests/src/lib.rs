//! The comparison of the proved code with the reference.
//!
//! Scripts go through the two replay programs, and single calls through the exported boundary and
//! the reference library. Every case is made from a seed, so that it can be made again. What
//! differs is saved to a file under `build/mismatch/`, which the message names.
//!
//! Each folder imports only from those before it: `seed` and `state`, `judge`, `cases`, `run`.

#![deny(unsafe_code)]
#![warn(missing_docs)]

#[cfg(all(library_missing, not(clippy)))]
compile_error!(
    "build/lib/liblokhazim.a is missing: run 'make lib' in the repository's folder, then build again"
);

pub mod cases;
pub mod judge;
pub mod run;
pub mod state;

pub use lokhazim_seed as seed;
