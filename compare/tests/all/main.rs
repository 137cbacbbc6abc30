//! The tests that are not beside what they test, in one program, so that it is linked once.

mod blank;
mod block_refusals;
mod blocks;
mod common;
mod degrees;
mod encode;
mod encode_refusals;
mod harness;
mod lifting;
mod pair;
mod pair_refusals;
mod pause;
mod pause_refusals;
mod program;
mod refusals;
mod sheets;
mod trial_values;
