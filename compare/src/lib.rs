//! An independent reading of the film frame decoder's paper, a fast decoder by hand, and
//! the harness that compares the proved library with the first and times it against the
//! second.

pub mod bench;
pub mod fast;
pub mod generate;
pub mod harness;
pub mod inspect;
pub mod interface;
#[cfg(frame_library)]
pub mod library;
pub mod pair;
pub mod paper;
pub mod random;
pub mod trials;

#[cfg(test)]
mod faults;
