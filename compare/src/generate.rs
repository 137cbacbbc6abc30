//! Seeded random inputs: graphs, settings, values, sheets and run texts, good and damaged.

pub mod advance_cases;
pub mod advance_orders;
pub mod blank;
pub mod blank_cases;
pub mod blank_orders;
pub mod block_limits;
pub mod block_orders;
pub mod block_strips;
pub mod blocks;
pub mod cases;
pub mod codewords;
pub mod damage;
pub mod encode_limits;
pub mod encode_orders;
pub mod encoding;
pub mod graphs;
pub mod lifting;
pub mod limits;
pub mod orders;
pub mod pair;
pub mod pair_cases;
pub mod pair_orders;
pub mod pause;
pub mod pause_cases;
pub mod programs;
pub mod refusals;
pub mod settings;
pub mod strips;
pub mod texts;

pub use graphs::Lists;
