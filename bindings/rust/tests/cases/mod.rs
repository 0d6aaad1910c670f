//! The cases that both implementations are run on, a file for each subject.

pub mod bytes;
pub mod capacity;
pub mod changes;
pub mod descriptors;
pub mod ids;
pub mod images;
pub mod items;
pub mod leases;
pub mod moments;
pub mod named;
pub mod narrowing;
pub mod paths;
pub mod removals;
pub mod requests;
pub mod submissions;
pub mod upgrades;
