#![cfg_attr(any(not(doctest), feature = "quinn"), doc = include_str!("../README.md"))]
#![deny(missing_docs, unsafe_op_in_unsafe_fn)]

mod clock;
mod paused;
#[cfg(feature = "quinn")]
mod quinn;

pub use paused::run;
#[cfg(feature = "quinn")]
pub use crate::quinn::{endpoint, Runtime, Socket};
