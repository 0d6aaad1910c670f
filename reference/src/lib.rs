//! An ordinary implementation of the gate in Rust, written from documents 01 and 02 and the sources that they name.
//!
//! It shares no code with the proved library. Each public function takes the same slices and numbers as the call of the
//! same name in `include/cap.h` and answers with the same numbers, so that the two can be compared on any input.

pub mod answer;
mod cursor;
mod descriptor;
mod edition;
mod image;
mod item;
mod lease;
mod narrowing;
mod request;
mod resource;
mod room;
mod submission;
mod uuid;

pub use descriptor::{descriptor_read, grant_at, Descriptor, Grant};
pub use image::{image_find, image_new, image_upgrade, Stored, Written};
pub use item::{item_read, Item};
pub use narrowing::{narrow, Narrowing};
pub use request::{request, Decision, Request};
pub use resource::{matching, Matching};
pub use submission::{submit, Submission};
