//! The library and the model side by side, and chance to try them with.

#![allow(dead_code)]

pub mod arena;
pub mod calls;
pub mod damage;
pub mod library;
#[cfg(target_arch = "x86_64")]
pub mod painted;
pub mod pair;
pub mod reached;
pub mod stores;
