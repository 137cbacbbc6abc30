//! The paper's rules, naive and clear. Quoted words in the comments are the paper's.

pub mod blocks;
pub mod encode;
pub mod graph;
pub mod limits;
pub mod pair;
pub mod pause;
pub mod program;
pub mod quantiser;
pub mod rules;
pub mod run;
pub mod sheet;
pub mod state;
pub mod text;

pub use crate::interface::{PairRefusal, Refusal};
pub use blocks::{Blocks, Entry};
pub use encode::encode;
pub use graph::{Graph, check_graph, count_odd_checks, row_of_check};
pub use limits::Limits;
pub use pair::{Head, decode_pair};
pub use pause::{Handed, OneRun, advance, begin};
pub use program::frame;
pub use quantiser::{Level, Scaling, quantise};
pub use run::{Outcome, decode};
pub use sheet::{Sheet, read_sheet, write_sheet};
pub use state::State;

fn refuse<T>(number: u8, place: usize) -> Result<T, Refusal> {
    Err(Refusal { number, place })
}
