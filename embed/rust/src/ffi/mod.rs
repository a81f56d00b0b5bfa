//! The calls of C, made safe: those of the library, and the few of the system that std has not. No
//! other module has an `unsafe` block.
#![allow(unsafe_code)]

pub(crate) mod library;
pub(crate) mod system;
