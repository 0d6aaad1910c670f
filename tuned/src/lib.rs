//! The decision on a request, the check of the image included, written for speed: to measure the proved library against.
//!
//! It answers what `reference::request` answers and leaves the same image. It has no `unsafe`, allocates nothing but for lease
//! tables of over 1,024 rows that do not ascend, and reads each body once.

#![forbid(unsafe_code)]

mod body;
mod grants;
mod ids;
mod image;
mod lease;
mod matching;
mod request;
mod resource;
mod revocation;
mod strings;
mod words;

pub use request::request;
