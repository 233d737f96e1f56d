//! Stands in for serde, so that the crate builds without a registry.

pub use empty_derives::{Deserialize, Serialize};
