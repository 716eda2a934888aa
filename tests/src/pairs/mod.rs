//! Two labels by edition, profile and seed, for comparing. They name a policy and pairs of labels under it, which
//! are compared; or a policy and sessions of its users, which are asked beside its label records. A seed
//! alone names two labels that are merged.

pub mod by_hand;
mod compared;
mod kinds;
mod lacking;
mod merging;
mod reading;
mod tally;

pub use compared::{each_pair, Step};
pub use kinds::Kind;
pub use lacking::Lacking;
pub use merging::{merges, pair, triples};
pub use reading::{each_record, Beside, Held, Program};
pub use tally::{PairTally, ReadingTally};
